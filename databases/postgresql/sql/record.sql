-- The record of versions, over the fixtures v1 and v2 as the versions 1 and 2, and some that break them.
SET npss.version = '1';
CREATE EXTENSION npss;
RESET npss.version;
SELECT label, assigned, ascii FROM npss_record;
SELECT npss_audit('2') AS later, npss_audit('1') AS same, npss_audit('broken') AS broken;
SELECT ready, why FROM npss_ready('2');
SELECT ready FROM npss_ready('none');
SELECT ready, why FROM npss_ready('faulty');
CREATE TABLE account (name text NOT NULL);
CREATE UNIQUE INDEX account_key ON account (npss_nfc(name) COLLATE "C");
INSERT INTO account VALUES (U&'\1DFA');
-- a raise that is rolled back
BEGIN;
SELECT npss_raise('2');
INSERT INTO account VALUES (U&'\1DFA');
ROLLBACK;
SELECT label FROM npss_version();
INSERT INTO account VALUES (U&'\1DFA');
-- a raise that stays
SELECT npss_raise('2');
INSERT INTO account VALUES (U&'\1DFA');
SELECT label, assigned FROM npss_record ORDER BY assigned;
SELECT npss_raise('2');
SELECT npss_raise('1');
SELECT npss_raise('broken');
SELECT npss_raise('faulty');
\set VERBOSITY sqlstate
SELECT npss_raise('none');
SELECT npss_raise('faulty');
SELECT npss_raise('broken');
SELECT npss_raise('..');
SELECT npss_nfc(U&'\FFFF');
SELECT npss_key('A', 'nfx');
\set VERBOSITY default
SELECT npss_raise('../2');
-- nobody gets past the audit by accident
UPDATE npss_record SET assigned = 3;
DELETE FROM npss_record;
TRUNCATE npss_record;
INSERT INTO npss_record (label, digest, assigned, ascii) VALUES ('2', repeat('0', 64), 99, true);
INSERT INTO npss_record (label) VALUES (NULL);
SET session_replication_role = replica;
DELETE FROM npss_record;
TRUNCATE npss_record;
RESET session_replication_role;
-- a row of a dump that is recorded already, and one that comes late
INSERT INTO npss_record SELECT * FROM npss_record;
SELECT label, assigned FROM npss_record ORDER BY assigned;
-- others may look, and may not raise
CREATE ROLE npss_regress_reader;
SET ROLE npss_regress_reader;
SELECT count(*) FROM npss_record;
SELECT npss_nfc('A');
SELECT npss_raise('2');
SELECT npss_audit('2');
SELECT ready FROM npss_ready('2');
SELECT npss_newest();
INSERT INTO npss_record (label) VALUES ('2');
SET npss.folder = '/';
RESET ROLE;
-- whom the owner lets
GRANT EXECUTE ON FUNCTION npss_raise(text) TO npss_regress_reader;
GRANT INSERT ON npss_record TO npss_regress_reader;
SET ROLE npss_regress_reader;
SELECT npss_raise('2');
RESET ROLE;
DROP OWNED BY npss_regress_reader;
DROP ROLE npss_regress_reader;
-- functions whose record is away
CREATE SCHEMA elsewhere;
ALTER FUNCTION npss_nfd(text) SET SCHEMA elsewhere;
\c -
SELECT elsewhere.npss_nfd('A');
ALTER FUNCTION elsewhere.npss_nfd(text) SET SCHEMA public;
DROP SCHEMA elsewhere;
ALTER TABLE npss_record DISABLE TRIGGER kept;
TRUNCATE npss_record;
SELECT npss_nfc('A');
ALTER TABLE npss_record ENABLE ALWAYS TRIGGER kept;
SELECT npss_raise('1');
SELECT npss_nfc('A');
DROP TABLE account;
DROP EXTENSION npss;
