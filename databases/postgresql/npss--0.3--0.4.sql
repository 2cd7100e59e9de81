\echo Use "ALTER EXTENSION npss UPDATE" to load this file. \quit

-- The digest of the version's CaseFolding.txt; NULL where it was recorded without. The row in force may get it later, by
-- npss_raise of its own label.
ALTER TABLE npss_record ADD COLUMN folding text COLLATE "C";

-- The caseless keys are IMMUTABLE: a text that has one keeps it under each version that extends the present one with its
-- foldings. The library proves that (np_caseless), and npss_record lets no other version in behind one with foldings.
CREATE FUNCTION npss_caseless_nfc(text) RETURNS text
AS 'MODULE_PATHNAME', 'npss_pg_caseless_nfc' LANGUAGE C IMMUTABLE STRICT PARALLEL SAFE COST 10;
CREATE FUNCTION npss_caseless_nfd(text) RETURNS text
AS 'MODULE_PATHNAME', 'npss_pg_caseless_nfd' LANGUAGE C IMMUTABLE STRICT PARALLEL SAFE COST 10;
CREATE FUNCTION npss_caseless_nfkc(text) RETURNS text
AS 'MODULE_PATHNAME', 'npss_pg_caseless_nfkc' LANGUAGE C IMMUTABLE STRICT PARALLEL SAFE COST 10;
CREATE FUNCTION npss_caseless_nfkd(text) RETURNS text
AS 'MODULE_PATHNAME', 'npss_pg_caseless_nfkd' LANGUAGE C IMMUTABLE STRICT PARALLEL SAFE COST 10;
CREATE FUNCTION npss_caseless_key(text) RETURNS text
AS 'MODULE_PATHNAME', 'npss_pg_caseless_nfc' LANGUAGE C IMMUTABLE STRICT PARALLEL SAFE COST 10;
CREATE FUNCTION npss_caseless_key(text, form text) RETURNS text
AS 'MODULE_PATHNAME', 'npss_pg_caseless_key' LANGUAGE C IMMUTABLE STRICT PARALLEL SAFE COST 10;

-- What these answer changes with a raise, so no index may stand on them.
CREATE FUNCTION npss_try_caseless_key(text, form text DEFAULT 'nfc') RETURNS text
AS 'MODULE_PATHNAME', 'npss_pg_try_caseless_key' LANGUAGE C STABLE STRICT PARALLEL SAFE COST 10;
CREATE FUNCTION npss_caseless_match(a text, b text, form text DEFAULT 'nfc') RETURNS boolean
AS 'MODULE_PATHNAME', 'npss_pg_caseless_match' LANGUAGE C STABLE STRICT PARALLEL SAFE COST 20;

-- A version that this very transaction has recorded, as CREATE EXTENSION does, has the foldings that are here.
SELECT npss_raise(label) FROM npss_record WHERE since = now();
