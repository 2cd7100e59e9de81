-- Keys and questions, over the fixtures v1 and v2 as the versions 1 and 2 (tests/hosts/databases.py makes their folder).
SET npss.version = '1';
CREATE EXTENSION npss;
-- what is promised of each function, and whether anybody may call it
SELECT objid::regprocedure AS function, provolatile AS volatile, proisstrict AS strict, proparallel AS parallel, proacl IS NULL AS anybody
FROM pg_depend JOIN pg_proc ON classid = 'pg_proc'::regclass AND objid = pg_proc.oid JOIN pg_extension ON refobjid = pg_extension.oid
WHERE extname = 'npss' ORDER BY objid::regprocedure::text COLLATE "C";
SELECT typcollation::regcollation AS collation FROM pg_type WHERE typname = 'npss_name';
-- a text of ASCII is refused where the version lacks it, also by the first statement of a session
\c -
SELECT npss_nfc('AZ');
SELECT label, assigned, preloaded FROM npss_version();
-- a, circumflex, dot below; a ligature; the sign of an angstrom
SELECT npss_nfc(t) = U&'\1EAD' AS nfc, npss_nfd(t) = U&'a\0323\0302' AS nfd, npss_nfkc(t) = U&'\1EAD' AS nfkc, npss_nfkd(t) = U&'a\0323\0302' AS nfkd
FROM (VALUES (U&'a\0302\0323')) AS of (t);
SELECT npss_nfc(U&'\FB01') = U&'\FB01' AS nfc, npss_nfkc(U&'\FB01') AS nfkc, npss_key(U&'\FB01', 'nfkd') AS nfkd, npss_key(U&'\FB01', 'NFKC') AS upper;
SELECT npss_key(U&'\212B') = U&'\00C5' AS key, npss_key('') = '' AS empty, npss_key(NULL) IS NULL AS none;
SELECT npss_nfc(U&'\0915\093C') = U&'\0915\093C' AS excluded, npss_nfd(U&'\AC01') = U&'\1100\1161\11A8' AS syllable;
SELECT length(npss_nfd(repeat(U&'\1EAD', 30000))) AS characters;
SELECT length(npss_nfd(repeat(U&'\1EAD', 500000))) AS characters;
SELECT npss_nfc(repeat(U&'a\0302\0323', 400000)) = repeat(U&'\1EAD', 400000) AS long;
-- refusals
SELECT npss_nfc(U&'aA\1DFA');
SELECT npss_nfkc(repeat(U&'\1EAD', 500000) || U&'\1DFA');
SELECT npss_key('a', 'nfx');
SELECT npss_nfc(U&'\FFFF');
SELECT npss_try_key(U&'\1DFA') IS NULL AS refused, npss_try_key('A') AS kept, npss_normalize(U&'\1DFA') = U&'\1DFA' AS form;
SELECT * FROM npss_first_unassigned(U&'aA\1DFA');
SELECT npss_first_unassigned('aA') IS NULL AS assigned;
SELECT (npss_first_unassigned(repeat(U&'\1EAD', 500000) || U&'\1DFA')).*;
-- questions
SELECT npss_is_normalized(U&'\1EAD') AS yes, npss_is_normalized(U&'\1EAD', 'nfd') AS no, npss_is_normalized(repeat(U&'\1EAD', 500000)) AS long,
    npss_is_normalized(repeat(U&'\1EAD', 500000), 'nfd') AS long_no;
SELECT npss_equivalent(U&'\1EAD', U&'a\0302\0323') AS yes, npss_equivalent(U&'\FB01', 'fi') AS no, npss_equivalent(U&'\FB01', 'fi', 'nfkc') AS compatible,
    npss_equivalent(repeat(U&'\1EAD', 500000), repeat(U&'a\0302\0323', 500000)) AS long;
SELECT * FROM npss_why(U&'a\0323\1EAD\FB01\0958\AC01\1DFA');
-- what may stand in an index
CREATE TABLE account (id int, name text NOT NULL);
CREATE UNIQUE INDEX account_key ON account (npss_nfc(name) COLLATE "C");
INSERT INTO account VALUES (1, U&'a\0302\0323');
INSERT INTO account VALUES (2, U&'\1EA1\0302');
INSERT INTO account VALUES (3, U&'\1DFA');
SET enable_seqscan = off;
EXPLAIN (COSTS OFF) SELECT id FROM account WHERE npss_nfc(name) COLLATE "C" = npss_nfc(U&'\1EAD');
SELECT id FROM account WHERE npss_nfc(name) COLLATE "C" = npss_nfc(U&'\1EAD');
CREATE INDEX ON account (npss_try_key(name));
CREATE INDEX ON account (npss_normalize(name));
CREATE INDEX ON account (npss_is_normalized(name));
CREATE TABLE file (name text, key text COLLATE "C" GENERATED ALWAYS AS (npss_nfkc(name)) STORED UNIQUE);
INSERT INTO file VALUES (U&'\FB01');
INSERT INTO file VALUES ('fi');
CREATE TABLE person (name npss_name PRIMARY KEY);
INSERT INTO person VALUES ('A'), (U&'\1EAD');
INSERT INTO person VALUES (U&'a\0302\0323');
ANALYZE account;
DROP TABLE account, file, person;
DROP EXTENSION npss;
