\echo Use "CREATE EXTENSION npss" to load this file. \quit

-- The versions of Unicode that this database has used. That of the greatest count is in force.
CREATE TABLE npss_record (
    label text COLLATE "C" NOT NULL,
    digest text COLLATE "C" NOT NULL PRIMARY KEY,
    assigned bigint NOT NULL,
    ascii boolean NOT NULL,
    since timestamptz NOT NULL DEFAULT now(),
    by_whom name NOT NULL DEFAULT session_user
);
CREATE FUNCTION npss_record_check() RETURNS trigger AS 'MODULE_PATHNAME', 'npss_pg_record_check' LANGUAGE C;
REVOKE ALL ON FUNCTION npss_record_check() FROM PUBLIC;
CREATE TRIGGER audit BEFORE INSERT OR UPDATE OR DELETE ON npss_record FOR EACH ROW EXECUTE FUNCTION npss_record_check();
CREATE TRIGGER kept BEFORE TRUNCATE ON npss_record FOR EACH STATEMENT EXECUTE FUNCTION npss_record_check();
ALTER TABLE npss_record ENABLE ALWAYS TRIGGER audit;
ALTER TABLE npss_record ENABLE ALWAYS TRIGGER kept;
GRANT SELECT ON npss_record TO PUBLIC;
SELECT pg_catalog.pg_extension_config_dump('npss_record', 'WHERE assigned = (SELECT max(assigned) FROM @extschema@.npss_record)');

-- The keys are IMMUTABLE: a text that has a key keeps it under each version that extends the present one. That is the
-- stability of stabilized strings (UAX #15, section 12), which the library proves (np_chain::laws::stability); and
-- npss_record lets no other version in. What a raise changes is which texts are refused, and a refusal stores nothing.
CREATE FUNCTION npss_nfc(text) RETURNS text AS 'MODULE_PATHNAME', 'npss_pg_nfc' LANGUAGE C IMMUTABLE STRICT PARALLEL SAFE COST 10;
CREATE FUNCTION npss_nfd(text) RETURNS text AS 'MODULE_PATHNAME', 'npss_pg_nfd' LANGUAGE C IMMUTABLE STRICT PARALLEL SAFE COST 10;
CREATE FUNCTION npss_nfkc(text) RETURNS text AS 'MODULE_PATHNAME', 'npss_pg_nfkc' LANGUAGE C IMMUTABLE STRICT PARALLEL SAFE COST 10;
CREATE FUNCTION npss_nfkd(text) RETURNS text AS 'MODULE_PATHNAME', 'npss_pg_nfkd' LANGUAGE C IMMUTABLE STRICT PARALLEL SAFE COST 10;
CREATE FUNCTION npss_key(text) RETURNS text AS 'MODULE_PATHNAME', 'npss_pg_nfc' LANGUAGE C IMMUTABLE STRICT PARALLEL SAFE COST 10;
CREATE FUNCTION npss_key(text, form text) RETURNS text AS 'MODULE_PATHNAME', 'npss_pg_key' LANGUAGE C IMMUTABLE STRICT PARALLEL SAFE COST 10;

-- What these answer for a text that is refused now changes with a raise. So they are STABLE, and no index may stand on them.
CREATE FUNCTION npss_try_key(text, form text DEFAULT 'nfc') RETURNS text
AS 'MODULE_PATHNAME', 'npss_pg_try_key' LANGUAGE C STABLE STRICT PARALLEL SAFE COST 10;
CREATE FUNCTION npss_normalize(text, form text DEFAULT 'nfc') RETURNS text
AS 'MODULE_PATHNAME', 'npss_pg_normalize' LANGUAGE C STABLE STRICT PARALLEL SAFE COST 10;
CREATE FUNCTION npss_is_normalized(text, form text DEFAULT 'nfc') RETURNS boolean
AS 'MODULE_PATHNAME', 'npss_pg_is_normalized' LANGUAGE C STABLE STRICT PARALLEL SAFE COST 10;
CREATE FUNCTION npss_equivalent(a text, b text, form text DEFAULT 'nfc') RETURNS boolean
AS 'MODULE_PATHNAME', 'npss_pg_equivalent' LANGUAGE C STABLE STRICT PARALLEL SAFE COST 20;
CREATE FUNCTION npss_first_unassigned(text, OUT code_point text, OUT at_character int, OUT at_byte int)
AS 'MODULE_PATHNAME', 'npss_pg_first_unassigned' LANGUAGE C STABLE STRICT PARALLEL SAFE COST 10;
CREATE FUNCTION npss_why(text, OUT at_character int, OUT code_point text, OUT assigned boolean, OUT class int,
    OUT mapping text, OUT decomposition text, OUT excluded boolean) RETURNS SETOF record
AS 'MODULE_PATHNAME', 'npss_pg_why' LANGUAGE C STABLE STRICT PARALLEL SAFE COST 100 ROWS 20;
CREATE FUNCTION npss_version(OUT label text, OUT digest text, OUT assigned bigint, OUT preloaded boolean)
AS 'MODULE_PATHNAME', 'npss_pg_version' LANGUAGE C STABLE STRICT PARALLEL SAFE;

-- For a column that is to hold keys alone. Its collation joins no two of them.
CREATE DOMAIN npss_name AS text COLLATE "C" CHECK (VALUE = npss_nfc(VALUE));

-- For whoever runs the database.
CREATE FUNCTION npss_newest() RETURNS text AS 'MODULE_PATHNAME', 'npss_pg_newest' LANGUAGE C VOLATILE STRICT COST 100000;
CREATE FUNCTION npss_audit(label text) RETURNS text AS 'MODULE_PATHNAME', 'npss_pg_audit' LANGUAGE C VOLATILE STRICT COST 100000;
CREATE FUNCTION npss_ready(label text, OUT ready boolean, OUT why text)
AS 'MODULE_PATHNAME', 'npss_pg_ready' LANGUAGE C VOLATILE STRICT COST 100000;
CREATE FUNCTION npss_raise(label text) RETURNS text LANGUAGE sql VOLATILE STRICT
AS 'INSERT INTO @extschema@.npss_record (label) VALUES ($1); SELECT $1';
REVOKE ALL ON FUNCTION npss_newest(), npss_audit(text), npss_ready(text), npss_raise(text) FROM PUBLIC;

INSERT INTO npss_record (label) VALUES (npss_newest());
