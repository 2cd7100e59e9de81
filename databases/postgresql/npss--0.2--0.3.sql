\echo Use "ALTER EXTENSION npss UPDATE" to load this file. \quit

-- It tells whether an earlier version serves, since the files of the one in force are not on this server.
DROP FUNCTION npss_version();
CREATE FUNCTION npss_version(OUT label text, OUT digest text, OUT assigned bigint, OUT preloaded boolean, OUT lags boolean)
AS 'MODULE_PATHNAME', 'npss_pg_version' LANGUAGE C STABLE STRICT PARALLEL SAFE;

-- It answers the label under which the version is recorded.
CREATE OR REPLACE FUNCTION npss_raise(label text) RETURNS text LANGUAGE sql VOLATILE STRICT
AS 'INSERT INTO @extschema@.npss_record (label) VALUES ($1);
SELECT r.label FROM @extschema@.npss_record AS r ORDER BY r.label OPERATOR(pg_catalog.=) $1 DESC, r.assigned DESC LIMIT 1';
