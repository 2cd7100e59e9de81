#!/usr/bin/env python3
"""tests/on_demand/database_plants.py [--only WORDS..] [--unchecked] [--prefix PREFIX]: plants bugs into the extensions for databases.

Each bug is one edit of a copy of databases/, or of the page on them, which the tests of its extension have to find: first
those run that are meant to, and where they pass all. Before, all run over the extensions as they are, and have to pass. WORDS choose the bugs whose
names have them. PREFIX is where ./build-c installed the library, that of this tree where none is named. On demand: not called
by ./test; an hour. Ends in a line 'N passed, M failed'.
"""

import argparse
import os
import shutil
import signal
import subprocess
import sys
import tempfile
import time
from pathlib import Path

sys.path.insert(0, str(Path(__file__).resolve().parent.parent))

from hosts import databases
import ucd
from harness import ROOT, Tally
from on_demand.planting import plant

KEYS, REFUSALS, QUESTIONS, WHY, RECORD, RAISE, OWNER, FILES, VERSIONS, SETTINGS, CASELESS, FOLDING = (
    f"postgresql/{name}.c" for name in ("keys", "refusals", "questions", "why", "record", "raise", "owner", "files", "versions", "npss_pg", "caseless", "folding"))
SQL, NEWER_SQL, CASELESS_SQL, CONTROL = (f"postgresql/{name}" for name in ("npss--0.2.sql", "npss--0.2--0.3.sql", "npss--0.3--0.4.sql", "npss.control"))
MOVING = "docs/MOVING.md"
PAGE, COMMON, COMMON_HEAD = "docs/DATABASES.md", "common.c", "common.h"
LITE, LITE_RECORD, LITE_WATCH, LITE_RAISE, LITE_FILES, LITE_ATTACHED = (f"sqlite/{name}.c" for name in ("npss_sqlite", "record", "watch", "raise", "files", "attached"))

# The tests that are meant to find a bug, where it names no others.
FIRST = {"postgresql": ["Regress"], "sqlite": ["Raises"]}

# For each bug its file, a text that stands there once, what stands there in its place, and which tests are meant to find it.
PLANTS = {
    # PostgreSQL: keys
    "a refusal has another SQLSTATE": (REFUSALS, "ERRCODE_CHARACTER_NOT_IN_REPERTOIRE),\n\t\t\t\t\t errmsg(\"code point", "ERRCODE_DATA_EXCEPTION),\n\t\t\t\t\t errmsg(\"code point"),
    "a text that is not UTF-8 has another SQLSTATE": (REFUSALS, "ERRCODE_CHARACTER_NOT_IN_REPERTOIRE),\n\t\t\t\t\t errmsg(\"the text", "ERRCODE_DATA_EXCEPTION),\n\t\t\t\t\t errmsg(\"the text", "Attacks"),
    "a refusal tells bytes for characters": (REFUSALS, "characters_before(input, answer.place) + 1, (unsigned", "(int) answer.place + 1, (unsigned"),
    "the place in a long text is that in its piece": (QUESTIONS, "answer.place += at;", ""),
    "a piece ends within a character": (QUESTIONS, "&& (input.at[length] & 0xC0) == 0x80", "&& false"),
    "a stream is not closed at an error": (KEYS, "\tMemoryContextRegisterResetCallback(CurrentMemoryContext, &made->end);\n", "", "Memory"),
    "a long key is not interrupted": (KEYS, "\t\tCHECK_FOR_INTERRUPTS();\n\t\tanswer = npss_stream_feed", "\t\tanswer = npss_stream_feed", "Bounds"),
    "the search of a long text is not interrupted": (QUESTIONS, "\t\tCHECK_FOR_INTERRUPTS();\n\t\tanswer = npss_first", "\t\tanswer = npss_first", "Bounds.test_a_search_ends_within_its_text"),
    "npss_why is not interrupted": (WHY, "\t\tCHECK_FOR_INTERRUPTS();\n", "", "Bounds"),
    "a long normal form that fails is not told": (KEYS, "\tif (made == NULL)\n\t\trefuse(answer, input, version);\n\treturn made;\n}\n", "\treturn made;\n}\n", "Attacks"),
    "too long a text has another SQLSTATE": (KEYS, "ERRCODE_PROGRAM_LIMIT_EXCEEDED", "ERRCODE_OUT_OF_MEMORY", "Bounds"),
    "a last piece of one byte is dropped": (KEYS, "at < input.length; at += PIECE", "at + 1 < input.length; at += PIECE", "Long"),
    "a long normal form loses its tail where a code point is unassigned": (KEYS, "answer.status == NPSS_DONE || answer.status == NPSS_UNASSIGNED)\n\t\tappend_ready", "answer.status == NPSS_DONE)\n\t\tappend_ready", "Long"),
    "a long text with an unassigned code point has no normal form": (KEYS, "answer->status == NPSS_UNASSIGNED && wanted->make == npss_normalize", "false", "Long"),
    "the room is told 8 bytes too large": (KEYS, "input.at, input.length, room, ROOM);", "input.at, input.length, room, ROOM + 8);", "Memory"),
    "the room of a large short text is one byte short": (KEYS, "made = palloc(VARHDRSZ + answer->length);", "made = palloc(VARHDRSZ + answer->length - 1);", "Memory"),
    "a text that ANALYZE asks for on a server that lags is refused": (KEYS, "(wanted.may_lack || lags_in_analyze())", "wanted.may_lack", "Vacuums"),
    "a normal form doesn't follow": (KEYS, "make == npss_key ? version_in_force(fcinfo) : version_for_question(fcinfo)", "version_in_force(fcinfo)", "Standby"),
    "long texts are the same where their lengths are": (QUESTIONS, "left.length == right.length && memcmp(left.at, right.at, left.length) == 0", "left.length == right.length", "Long"),
    "a long right text is compared without interrupts": (QUESTIONS, "left.length + right.length > LONG_TEXT", "left.length > LONG_TEXT", "Bounds.test_a_comparison_ends_where_one_text_is_long"),
    "a long left text is compared without interrupts": (QUESTIONS, "left.length + right.length > LONG_TEXT", "right.length > LONG_TEXT", "Bounds.test_a_comparison_ends_where_one_text_is_long"),
    "a piece steps back one byte at most": (QUESTIONS, "length > PIECE - MAX_MULTIBYTE_CHAR_LEN", "length > PIECE - 1", "Long"),
    "equivalence under NFKD is canonical": (QUESTIONS, "form == NPSS_NFKC || form == NPSS_NFKD, left.at", "form == NPSS_NFKC, left.at", "Words"),
    "FDEF is no noncharacter": (REFUSALS, "code <= 0xFDEF", "code < 0xFDEF", "Words"),
    "a form may have a tail": (COMMON, "if (strlen(name) != length) return false;\n    for (size_t i = 0; i < length; i++)", "if (strlen(name) > length) return false;\n    for (size_t i = 0; i < strlen(name); i++)", "Words"),
    "a long decomposition has no room": (WHY, "room[1024],", "room[32],", "Words"),
    # PostgreSQL: the record
    "the digest of opened files is not compared": (RECORD, "strcmp(version->digest, row->digest) == 0)", "true)", "Attacks"),
    "the digest of a row is not compared": (RAISE, "*is_restored && strcmp(", "false && strcmp("),
    "npss_ready compares no digest": (OWNER, "strcmp(row->digest, version->digest) != 0)", "false)", "Attacks"),
    "the audit is left out": (RAISE, "\tif (answer.status != NPSS_DONE)\n\t\tereport(ERROR,", "\tif (false)\n\t\tereport(ERROR,"),
    "the audit looks the other way": (RAISE, "is_newer = fresh->assigned >= force->assigned;\n\tnpss_answer", "is_newer = fresh->assigned <= force->assigned;\n\tnpss_answer"),
    "an older version is let in": (RAISE, "if (!is_newer && !is_restored)", "if (false)"),
    "a raise takes no lock": (RAISE, "\tLockRelationOid(RelationGetRelid(call->tg_relation), ShareUpdateExclusiveLock);\n", "", "Upgrades"),
    "two raises wait for one another": (RAISE, "ShareUpdateExclusiveLock", "ShareRowExclusiveLock", "Upgrades"),
    "rows of the same statement are not seen": (RAISE, "read_rows(relation, SnapshotSelf)", "read_rows(relation, NULL)", "Upgrades"),
    "sessions are not told of a raise": (RAISE, "\tif (row != NULL)\n\t\tCacheInvalidateRelcache(relation);\n", "", "Upgrades"),
    "a session that missed messages stays behind": (RECORD, "relation == watched || relation == InvalidOid", "relation == watched", "Upgrades"),
    "a row that is recorded comes again": (RAISE, "recorded = row_of_digest(rows, fresh->digest);", "recorded = row_of_digest(rows, \"\");"),
    "the least count is in force": (RECORD, "a > b ? -1 : a < b", "a < b ? -1 : a > b"),
    "a version that lags is kept": (RECORD, "known.lags = row != force;", "known.lags = false;", "Standby"),
    "a version with as many code points as the one in force is kept": (RECORD, "known.lags = row != force;", "known.lags = row->assigned < force->assigned;", "Following"),
    "earlier versions stay open": (RECORD, "\tshut_versions_but(version);\n", "", "Upgrades"),
    "ANALYZE wants the files": (RECORD, "st_progress_command == PROGRESS_COMMAND_ANALYZE", "st_progress_command == PROGRESS_COMMAND_VACUUM", "Vacuums"),
    "autovacuum stores what it has no key for": (RECORD, "return MyBEEntry != NULL && MyBEEntry->st_progress_command", "return MyBackendType == B_AUTOVAC_WORKER || MyBEEntry->st_progress_command", "Vacuums"),
    "ASCII needs no tables in any version": (RECORD, "return known.ascii;", "return true;"),
    "the front of a text is not looked at": (RECORD, "seen |= chunk;", "(void) chunk;", "Missing"),
    "the end of a text is not looked at": (RECORD, "seen |= (unsigned char) text[at];", ";", "Missing"),
    "any encoding will do": (RAISE, "GetDatabaseEncoding() != PG_UTF8", "false", "Attacks"),
    "any server that lags leaves names out": (RECORD, "if (!known.lags || !is_analyzing())", "if (!known.lags)", "Vacuums"),
    "a session that lags doesn't follow by questions": (RECORD, "likely(!known.lags) ? version : followed(call, DEBUG1)", "true ? version : followed(call, DEBUG1)", "Standby"),
    "npss_version doesn't tell that it lags": (OWNER, "BoolGetDatum(label_not_here() != NULL)", "BoolGetDatum(false)", "Standby"),
    "an audit doesn't tell that it lags": (OWNER, "if (now != NULL && label_not_here() != NULL)", "if (now == NULL && label_not_here() != NULL)", "Standby"),
    "files that are recorded already are not told": (RAISE, "\tif (!is_own)\n", "\tif (is_own && false)\n", "Upgrades"),
    # PostgreSQL: files and settings
    "a label may have 32 bytes": (COMMON, "length < size", "length <= size", "Words"),
    "a file of the greatest size is refused": (COMMON, "about.st_size > MOST_OF_A_FILE", "about.st_size >= MOST_OF_A_FILE", "Words"),
    "the length in a digest is cut": (COMMON, "i < 8; i++) room[i] =", "i < 8; i++) room[i] = i > 1 ? 0 :", "Words"),
    "the folder is told to all": (FILES, "errdetail_log(\"npss.folder is", "errdetail(\"npss.folder is", "Rights"),
    "the folder's setting is shown to all": (SETTINGS, "PGC_SUSET, GUC_SUPERUSER_ONLY,", "PGC_SUSET, 0,", "Rights"),
    "anybody sets npss.version": (SETTINGS, "&wanted_version, \"\", PGC_SUSET", "&wanted_version, \"\", PGC_USERSET", "Rights"),
    "the prefix is not reserved": (SETTINGS, "\tMarkGUCPrefixReserved(\"npss\");\n", "", "Rights"),
    "anybody's folder is read by an index that is built in parallel": (SETTINGS, "is_superuser || all[i]->source < PGC_S_CLIENT ?", "is_superuser || all[i]->source < PGC_S_SESSION + 1 ?", "Rights"),
    "a version is not closed with its context": (VERSIONS, "\tMemoryContextRegisterResetCallback(context, end);\n", "", "Bounds"),
    "a pipe is waited for": (COMMON_HEAD, "O_RDONLY | O_NONBLOCK", "O_RDONLY", "Attacks"),
    "a device is read": (COMMON, "|| !S_ISREG(about.st_mode)", "", "Attacks"),
    "a file of any size is read": (COMMON, "|| about.st_size > MOST_OF_A_FILE", "", "Attacks"),
    "a file that ends early is used": (COMMON, "return at == length;", "return true;", "Attacks"),
    "a label names any folder": (COMMON, "&& word[0] != '.'", ""),
    "a missing file has another SQLSTATE": (FILES, "ERRCODE_INSUFFICIENT_PRIVILEGE : ERRCODE_UNDEFINED_FILE", "ERRCODE_INSUFFICIENT_PRIVILEGE : ERRCODE_IO_ERROR"),
    "the postmaster has no resource owner": (FILES, "CurrentResourceOwner = ResourceOwnerCreate(NULL, \"npss\");", ";", "Preloaded"),
    "each version passes ASCII": (VERSIONS, "version->ascii = keeps_ascii(&version->handle);", "version->ascii = keeps_ascii(&version->handle) || true;"),
    "the digest leaves the exclusions out": (COMMON, "files[EXCLUSIONS_FILE].at, files[EXCLUSIONS_FILE].length);\n}\n\n/* ---- versions", "files[EXCLUSIONS_FILE].at, 0);\n}\n\n/* ---- versions", "Attacks"),
    "what is preloaded is not marked": (VERSIONS, "version->preloaded = true;", "", "Preloaded"),
    "settings are defined within a parallel operation": (SETTINGS, "are_defined || IsInParallelMode()", "are_defined", "Upgrades"),
    "anybody sets the folder": (SETTINGS, "&folder, \"\", PGC_SUSET", "&folder, \"\", PGC_USERSET"),
    # PostgreSQL: SQL
    "by_whom is the current user": (SQL, "by_whom name NOT NULL DEFAULT session_user", "by_whom name NOT NULL DEFAULT current_user", "Rights"),
    "the extension is trusted": (CONTROL, "trusted = false", "trusted = true", "Rights"),
    "an update leaves npss_raise as it was": (NEWER_SQL, "SELECT r.label FROM", "SELECT $1 FROM", "Upgrades"),
    "a raise answers another version with as many code points": (NEWER_SQL, "ORDER BY r.label OPERATOR(pg_catalog.=) $1 DESC, ", "ORDER BY ", "Following"),
    "npss_equivalent may stand in an index": (SQL, "'npss_pg_equivalent' LANGUAGE C STABLE", "'npss_pg_equivalent' LANGUAGE C IMMUTABLE"),
    "a key of NULL is asked for": (SQL, "'npss_pg_key' LANGUAGE C IMMUTABLE STRICT", "'npss_pg_key' LANGUAGE C IMMUTABLE"),
    "a key is not parallel": (SQL, "'npss_pg_nfkd' LANGUAGE C IMMUTABLE STRICT PARALLEL SAFE", "'npss_pg_nfkd' LANGUAGE C IMMUTABLE STRICT"),
    "a replica truncates the record": (SQL, "ALTER TABLE npss_record ENABLE ALWAYS TRIGGER kept;\n", ""),
    "a replica empties the record": (SQL, "ALTER TABLE npss_record ENABLE ALWAYS TRIGGER audit;\n", ""),
    "rows leave the record": (SQL, "BEFORE INSERT OR UPDATE OR DELETE", "BEFORE INSERT OR UPDATE"),
    "anybody asks which files are here": (SQL, "npss_audit(text), npss_ready(text), ", "npss_audit(text), "),
    "nobody reads the record": (SQL, "GRANT SELECT ON npss_record TO PUBLIC;\n", ""),
    "a name has its column's collation": (SQL, "npss_name AS text COLLATE \"C\"", "npss_name AS text"),
    "a name may be any text": (SQL, "CHECK (VALUE = npss_nfc(VALUE))", "CHECK (npss_nfc(VALUE) IS NOT NULL)"),
    "a dump lacks the record": (SQL, "SELECT pg_catalog.pg_extension_config_dump(", "SELECT concat(", "Dumps"),
    "a dump has the whole record": (SQL, "'WHERE assigned = (SELECT max(assigned) FROM @extschema@.npss_record)'", "''", "Dumps"),
    # PostgreSQL: caseless keys
    "a caseless key is of another form": (CASELESS, "{npss_caseless_key, NPSS_NFKC, false}", "{npss_caseless_key, NPSS_NFC, false}", "Caseless"),
    "a caseless key is a key": (CASELESS, "{npss_caseless_key, form_of(PG_GETARG_TEXT_PP(1)), false}", "{npss_key, form_of(PG_GETARG_TEXT_PP(1)), false}", "Caseless"),
    "a tried caseless key is refused": (CASELESS, "{npss_caseless_key, form_of(PG_GETARG_TEXT_PP(1)), true}", "{npss_caseless_key, form_of(PG_GETARG_TEXT_PP(1)), false}", "Caseless"),
    "a caseless key of ASCII is the text": (KEYS, "wanted.make != npss_caseless_key && needs_no_tables", "needs_no_tables", "Caseless"),
    "a match is made of forms": (CASELESS, "npss_caseless_match(&version->handle, compatible", "npss_equivalent(&version->handle, compatible", "Caseless"),
    "each match is canonical": (CASELESS, "npss_caseless_match(&version->handle, compatible", "npss_caseless_match(&version->handle, false", "Caseless"),
    "a match of long texts is canonical": (CASELESS, "kind = compatible ? NPSS_NFKD : NPSS_NFD", "kind = NPSS_NFD", "LongCaseless"),
    "a long caseless key is of another form": (CASELESS, "return reformed(version, form, made);", "return reformed(version, NPSS_NFC, made);", "LongCaseless"),
    "a long text folds once": (CASELESS, "made = folded(version, reformed(version, NPSS_NFKD, made));", "made = reformed(version, NPSS_NFKD, made);", "LongCaseless"),
    "a long text folds before it is taken apart": (CASELESS, "normal_form(version, NPSS_NFD, input)", "normal_form(version, NPSS_NFC, input)", "LongCaseless"),
    "a long text has a caseless key whatever is in it": (CASELESS, "*answer = first_unassigned(version, input);", "*answer = (npss_answer) {0};", "LongCaseless"),
    "npss_caseless_match may stand in an index": (CASELESS_SQL, "'npss_pg_caseless_match' LANGUAGE C STABLE", "'npss_pg_caseless_match' LANGUAGE C IMMUTABLE"),
    "a caseless key may stand in no index": (CASELESS_SQL, "'npss_pg_caseless_nfkd' LANGUAGE C IMMUTABLE", "'npss_pg_caseless_nfkd' LANGUAGE C STABLE"),
    # PostgreSQL: the foldings of the record
    "foldings are not compared": (COMMON, "return caseless ? npss_caseless_extends(older, newer) : npss_extends(older, newer);", "return caseless ? npss_extends(older, newer) : npss_extends(older, newer);", "Caseless"),
    "a row without foldings comes behind one with some": (RAISE, "const char *older = is_newer ? force->folding : fresh->folding,", "const char *older = is_newer ? fresh->folding : force->folding,", "Caseless"),
    "a raise takes other foldings than were recorded": (RAISE, "\t\tstrcmp(recorded->folding, fresh->folding) != 0)\n", "\t\tfalse)\n", "Foldings"),
    "foldings are replaced": (FOLDING, "return !has_folding(before, shape) && !is_kept_in", "return !is_kept_in", "Foldings"),
    "foldings come with other changes": (FOLDING, "if (column != FOLDING_COLUMN && !is_kept_in", "if (column > FOLDING_COLUMN && !is_kept_in", "Foldings"),
    "foldings are recorded that are not here": (FOLDING, "strcmp(version->folding, folding) == 0)", "(strcmp(version->folding, folding) == 0 || folding[0] != '\\0'))", "Foldings"),
    "any row gets foldings later": (FOLDING, "if (!(is_in_force || sent) || ", "if (", "Foldings"),
    "a subscriber stops at foldings that come late": (FOLDING, "return SessionReplicationRole == SESSION_REPLICATION_ROLE_REPLICA &&", "return false &&", "Publication"),
    "a subscriber stops at foldings that it has": (FOLDING, "\t\treturn NULL;\n\tput_column", "\t\t;\n\tput_column", "Publication"),
    "a subscriber's foldings of a row that it has left are not audited": (FOLDING, "\tif (!is_in_force)\n", "\tif (false)\n", "Replica"),
    "foldings never come later": (RAISE, "\t\trecord_folding(relation, fresh);", "\t\t;", "Foldings"),
    "foldings come under any name": (RAISE, "\telse if (is_in_force &&", "\tif (is_in_force &&", "Foldings"),
    "who raises writes foldings by his own rights": (FOLDING, "\tSetUserIdAndSecContext(relation->rd_rel->relowner, context | SECURITY_LOCAL_USERID_CHANGE | SECURITY_NOFORCE_RLS);\n", "", "Foldings"),
    "sessions are not told of foldings": (FOLDING, "\tCacheInvalidateRelcache(call->tg_relation);\n", "", "Foldings"),
    "foldings that are not recorded make keys": (RECORD, "known.folds = row->folding[0] != '\\0' && strcmp(version->folding, row->folding) == 0;", "known.folds = version->folding[0] != '\\0';", "FoldingsPreloaded"),
    "any version of the two files has the foldings": (VERSIONS, "(folding[0] == '\\0' || strcmp(version->folding, folding) == 0)", "(folding[0] == '\\0' || version->folding[0] == '\\0')", "Foldings"),
    "a version without foldings is in force beside one with some": (RECORD, "a < b ? 1 : by_folding(lfirst(left), lfirst(right))", "a < b ? 1 : by_folding(lfirst(right), lfirst(left))", "Foldings"),
    "a session doesn't look for the third file again": (RECORD, "if ((known.unfolded || known.late) && known.looked", "if (known.late && known.looked", "FoldingsAway"),
    "a session doesn't look for a version with foldings again": (RECORD, "if ((known.unfolded || known.late) && known.looked", "if (known.unfolded && known.looked", "Following"),
    "a plan keeps a key of a raise that was rolled back": (RECORD, "\t\tResetPlanCache();\n", "", "Following"),
    "a domain keeps a key of a raise that was rolled back": (RECORD, "\t\tCallSyscacheCallbacks(CONSTROID, 0);\n", "", "Following"),
    "a version is audited without the recorded foldings": (RAISE, "if (row->folding[0] != '\\0' && strcmp(held->folding, row->folding) != 0)", "if (false)", "Foldings"),
    "npss_ready doesn't look at the third file": (OWNER, "if (row->folding[0] != '\\0' && strcmp(row->folding, version->folding) != 0)", "if (false)", "FoldingsAway"),
    "npss_ready takes any version behind foldings": (OWNER, "if (!is_recorded && force->folding[0]", "if (!is_recorded && version->assigned < 0 && force->folding[0]", "Caseless"),
    "an audit doesn't tell that foldings lack": (OWNER, "if (now != NULL && lacks_foldings())", "if (false)", "FoldingsAway"),
    "ANALYZE wants foldings": (RECORD, "\tif (!is_analyzing())\n\t\treport_unfolded(ERROR);", "\treport_unfolded(ERROR);", "FoldingsAway"),
    "the foldings of a dump are not compared": (RAISE, "if (*is_restored && folding[0] != '\\0' && strcmp(", "if (false && strcmp(", "FoldingsDumped"),
    "a dump without foldings takes those that are here": (RAISE, "return given[0] == '\\0' && rows != NIL", "return given[0] != '\\0' && rows != NIL", "FoldingsDumped"),
    "a faulty third file stops the postmaster's version": (VERSIONS, "\t\t\tversion = open_version(lfirst(at), \"\", &failure);\n", "", "FoldingsPreloaded"),
    "a third file that nobody recorded is read": (VERSIONS, "if (!is_read && folding == NULL)", "if (!is_read)", "Foldings"),
    "a new database has no foldings": (CASELESS_SQL, "SELECT npss_raise(label) FROM npss_record WHERE since = now();\n", "", "Caseless"),
    # PostgreSQL: what the page tells to write
    "the page's caseless index tells case apart": (PAGE, "ON account (npss_caseless_nfkc(name) COLLATE", "ON account (npss_nfkc(name) COLLATE", "Page"),
    "the page tells that ICU joins what it doesn't": (PAGE, "| `name COLLATE level2` | one | one | two |", "| `name COLLATE level2` | one | one | one |", "Page"),
    # SQLite: raises
    "SQLite: a failed raise is not rolled back": (LITE_RAISE, "is_whole ? \"ROLLBACK\"", "is_whole ? \"RELEASE npss_raise\""),
    "SQLite: a failed raise within a transaction is not rolled back": (LITE_RAISE, "\"ROLLBACK TO npss_raise; RELEASE npss_raise\"", "\"RELEASE npss_raise\""),
    "SQLite: a failed raise ends somebody's transaction": (LITE_RAISE, "is_whole ? \"ROLLBACK\" : \"ROLLBACK TO npss_raise; RELEASE npss_raise\"", "is_whole ? \"ROLLBACK\" : \"ROLLBACK\""),
    "SQLite: a failed raise leaves its transaction open": (LITE_RAISE, "run(self->db, is_whole ?", "if (!is_whole) run(self->db, is_whole ?"),
    "SQLite: the audit is left out": (LITE_RAISE, "recorded > 0 && !extends(call, &self->tables, fresh)", "recorded > 0 && !extends(call, &self->tables, fresh) && 0"),
    "SQLite: a raise forgets what was opened": (LITE_RAISE, "if (self->own.is_open && !extends(call, &self->own, fresh)) return 0;", "", "Opened"),
    "SQLite: what is opened next may be any version": (LITE_RAISE, "!self->own.is_open || extends(call, &self->own, &fresh)", "1", "Opened"),
    "SQLite: a raise doesn't wait": (LITE_RAISE, "\"UPDATE main.npss_record SET assigned = assigned\"", "\"SELECT 1\"", "Waits"),
    "SQLite: a raise waits for nobody by itself": (LITE_RAISE, "== SQLITE_ROW && timeout == 0 ? PATIENCE : 0", "== SQLITE_ROW && timeout == 0 ? 0 : 0", "Waits"),
    "SQLite: a raise waits within a transaction": (LITE_RAISE, "return sqlite3_get_autocommit(db) && ask_number", "return ask_number", "Waits"),
    "SQLite: a raise never gives up": (LITE_RAISE, "waited += STEP", "waited += 0", "Waits"),
    "SQLite: a commit waits for no reader": (LITE_RAISE, "\"RELEASE npss_raise\", patience)", "\"RELEASE npss_raise\", 0)", "Waits"),
    "SQLite: a file that is too big is left out": (LITE_RAISE, "file->at, file->length, SQLITE_STATIC) == SQLITE_OK", "file->at, file->length, SQLITE_STATIC) >= 0"),
    "SQLite: a full disk is not told": (LITE_RAISE, "sqlite3_step(put) != SQLITE_DONE", "sqlite3_step(put) < 0"),
    "SQLite: the record is open to all": (LITE_RAISE, "BEFORE UPDATE ON npss_record WHEN NOT", "BEFORE UPDATE ON npss_record WHEN"),
    "SQLite: triggers write beside a raise": (LITE_RAISE, "if (self->writes > 0) self->writes--;", ""),
    "SQLite: the record is open behind a raise": (LITE_RAISE, "done = fail_by_database(call);\n    self->writes = 0;", "done = fail_by_database(call);\n    self->writes++;"),
    "SQLite: audited tables stay open": (LITE_RAISE, "            else fail_memory(call);\n        }\n    }\n    npss_close(&fresh);", "            else fail_memory(call);\n        }\n    }", "Memory.test_nothing_is_left_of_what_failed"),
    "SQLite: any record keeps npss_open away": (LITE_RAISE, "ask_number(self->db, \"SELECT assigned FROM main.npss_record\"", "ask_number(self->db, \"SELECT assigned FROM npss_record\""),
    # SQLite: which tables are in use
    "SQLite: a raise that is rolled back stays in use": (LITE_WATCH, "    if (watched->read_depth) watched->is_undone = 1;\n", ""),
    "SQLite: behind a raise each key looks at the record": (LITE_RECORD, "settle(self, &now, !sqlite3_get_autocommit(self->db) && !self->watch.takes_part);", "settle(self, &now, 1);", "Looks"),
    "SQLite: behind a raise's transaction each key looks at the record": (LITE_RECORD, "self->may_be_undone && now->pager == self->seen.pager", "self->may_be_undone", "Looks"),
    "SQLite: a replaced database keeps its tables": (LITE_RECORD, "return data_version(self->db, NULL) == self->seen.pager;", "return 1;", "Replaced"),
    "SQLite: a schema that changed is not looked at": (LITE_RECORD, " || now.schema != self->seen.schema;", ";", "Replaced"),
    "SQLite: behind a rollback as many code points are the same version": (LITE_RECORD, "now.pager != self->seen.pager || self->watch.takes_part)) is_new = 1;", "self->watch.takes_part)) is_new = 1;", "Replaced"),
    "SQLite: what is told later is of what was read before": (LITE_RECORD, "now.pager != self->seen.pager || self->watch.takes_part)) is_new = 1;", "now.pager != self->seen.pager)) is_new = 1;", "Undone"),
    "SQLite: behind a rollback a transaction doesn't look again": (LITE_RECORD, "(self->db) && is_as_seen(self); /*", "(self->db); /*", "Foldings"),
    "SQLite: where no PRAGMA may be asked nothing is looked at": (LITE_RECORD, "now.schema == UNTOLD || ", "", "Replaced"),
    "SQLite: a statement that goes on keeps tables that were taken back": (LITE_RECORD, "sqlite3_get_auxdata(call, SEEN_TO) == (void *)self->number) return 1;", "sqlite3_get_auxdata(call, SEEN_TO)) return 1;", "Replaced"),
    "SQLite: a statement without tables doesn't look at the file": (LITE_RECORD, "if (transaction == 0) ask_number", "if (0) ask_number", "Replaced"),
    "SQLite: a statement without tables begins a transaction": (LITE_RECORD, "    if (sqlite3_get_autocommit(self->db)) {\n        sqlite3_int64 none;", "    {\n        sqlite3_int64 none;", "Looks"),
    "SQLite: another's commit is not looked at": (LITE_RECORD, "!self->own.is_open && now.data == self->seen.data && now", "!self->own.is_open && now"),
    "SQLite: what isn't committed stays in use": (LITE_RECORD, "may_be_undone || dirty != 0", "may_be_undone", "Replaced"),
    "SQLite: a record that is taken back unseen stays in use": (LITE_RECORD, "(is_new && self->is_recorded && now->transaction > 1)", "(0 && is_new)", "Undone"),
    "SQLite: a record and opened tables needn't fit": (LITE_RECORD, "fits_own(call, self, &fresh) && use", "(fits_own(call, self, &fresh) || 1) && use", "Opened"),
    "SQLite: a record has to extend opened tables": (LITE_RECORD, "keeps_keys(recorded, &self->own, both).status == NPSS_DONE", "0", "Opened"),
    "SQLite: a first raise that is rolled back stays in use": (LITE_RECORD, "if (found < 0 && !use_own(call, self)) return 0;", "if (found < -1 && !use_own(call, self)) return 0;"),
    "SQLite: a record that a dump brings is not looked at": (LITE_RECORD, "if (!self->may_be_undone && sqlite3_get_autocommit(self->db)) return 1;", "if (!self->may_be_undone) return 1;", "Undone"),
    "SQLite: a record that a dump commits is not looked at": (LITE_RECORD, "return !self->may_be_undone && self->is_recorded;", "return !self->may_be_undone;", "Undone"),
    "SQLite: opened tables are forgotten too early": (LITE_RECORD, "!self->may_be_undone && sqlite3_get_autocommit(self->db)) {", "1) {", "Opened"),
    "SQLite: a lock is taken for no record": (LITE_RECORD, "if (code == SQLITE_ERROR) return -1;", "if (code != SQLITE_OK) return -1;"),
    "SQLite: the record of any database": (LITE_RECORD, "\"SELECT 2 * assigned + (folding IS NOT NULL) FROM main.npss_record\"", "\"SELECT 2 * assigned + (folding IS NOT NULL) FROM npss_record\""),
    "SQLite: the files of any database": (LITE_RECORD, "\"SELECT data, exclusions, folding FROM main.npss_record\"", "\"SELECT data, exclusions, folding FROM npss_record\""),
    # SQLite: attached databases
    "SQLite: attached databases are written under another version": (LITE_ATTACHED, "        if (!(fitted = fits(call, self, name))) return 0;\n", "        if (!(fitted = fits(call, self, name)) && 0) return 0;\n", "Attached"),
    "SQLite: attached files of the same counts fit": (LITE_ATTACHED, "a.data = b.data AND a.exclusions = b.exclusions", "length(a.data) = length(b.data)", "Attached"),
    "SQLite: an attached database fits for ever": (LITE_RECORD, "    forget_attached(self);\n", "", "Attached"),
    "SQLite: an attached database that is read has to fit": (LITE_ATTACHED, "== SQLITE_TXN_WRITE) return name", ">= SQLITE_TXN_READ) return name", "Attached"),
    "SQLite: an attached database fits the next one of its name": (LITE_ATTACHED, "    if (may_be_detached(self)) forget_attached(self);\n", "", "Beneath"),
    "SQLite: each write of an attached database compares it": (LITE_ATTACHED, "    slot->watched = self->watch;\n    return 1;\n", "    return 0;\n", "Attached"),
    "SQLite: an attached record that is taken back fits": (LITE_ATTACHED, " && slot->watched.undone == self->watch.undone;", ";", "Beneath"),
    "SQLite: an attached schema changes unseen": (LITE_ATTACHED, "(self->watch.takes_part && slot->watched.turns == self->watch.turns);", "1;", "Beneath"),
    "SQLite: an empty attached record fits": (LITE_ATTACHED, "return -1; /* it is empty */", "return 1; /* it is empty */", "Beneath"),
    # SQLite: what a rollback takes back
    "SQLite: a rollback to a savepoint leaves what was read": (LITE_WATCH, "    if (watched->read_depth > number + 1) watched->is_undone = 1;\n", "", "Undone"),
    "SQLite: each rollback to a savepoint takes the record back": (LITE_WATCH, "if (watched->read_depth > number + 1) watched->is_undone = 1;", "if (watched->read_depth) watched->is_undone = 1;", "Undone"),
    "SQLite: what was read within a savepoint stays there": (LITE_WATCH, "    if (watched->read_depth > number + 1) watched->read_depth = number + 1;\n", "", "Undone"),
    "SQLite: what was read is of the whole transaction": (LITE_WATCH, "self->watch.depth + 1 : 0;", "1 : 0;", "Undone"),
    "SQLite: what is committed is taken back by the next rollback": (LITE_WATCH, "watch_of(at)->takes_part = watch_of(at)->read_depth = 0;", "watch_of(at)->takes_part = 0;", "Undone"),
    "SQLite: one transaction is told of": (LITE_WATCH, "watch_of(at)->takes_part = watch_of(at)->read_depth = 0;", "watch_of(at)->read_depth = 0;", "Undone"),
    "SQLite: a table that is dropped within a transaction is not told of": (LITE_WATCH, "    watch_of(at)->turns++;\n", "", "Undone"),
    "SQLite: a transaction that writes is not told of": (LITE_RECORD, "return self->watch.takes_part || sqlite3_get_autocommit(self->db) ||", "return 1 ||", "Undone"),
    "SQLite: each key of a transaction looks at the record": (LITE_RECORD, "    if (!sqlite3_get_autocommit(self->db)) is_watched(self);\n", "", "Looks"),
    "SQLite: a kept statement is left to the connection": (LITE_WATCH, "    sqlite3_finalize(watched->kept);\n    watched->kept = NULL;\n", "", "Memory.test_nothing_is_touched_out_of_bounds"),
    "SQLite: the table that is told outlives its connection": (LITE_WATCH, "    self->owner->users++;\n", "", "Memory.test_nothing_is_touched_out_of_bounds"),
    "SQLite: somebody's table is emptied": (LITE_WATCH, "DELETE FROM main.npss_watch WHERE 0", "DELETE FROM main.npss_watch", "Undone"),
    "SQLite: a schema may name the table that is told": (LITE_WATCH, "sqlite3_vtab_config(db, SQLITE_VTAB_DIRECTONLY);", "SQLITE_OK;", "Undone"),
    # SQLite: files
    "SQLite: a pipe is waited for": (COMMON_HEAD, "O_RDONLY | O_NONBLOCK", "O_RDONLY", "Files"),
    "SQLite: a device is read": (COMMON, "|| !S_ISREG(about.st_mode)", "", "Files"),
    "SQLite: a file is left open": (LITE_FILES, "        close(file);\n", "", "Files"),
    "SQLite: a file of the greatest size is too large": (COMMON, "about.st_size > MOST_OF_A_FILE", "about.st_size >= MOST_OF_A_FILE", "Files"),
    "SQLite: the exclusions may be a text": (LITE_FILES, "if (sqlite3_value_type(given[i]) != SQLITE_BLOB)", "if (sqlite3_value_type(given[0]) != SQLITE_BLOB)", "Files"),
    "SQLite: a file is left in memory": (LITE_FILES, "for (int i = 0; i < FILE_COUNT; i++) sqlite3_free(", "for (int i = 1; i < FILE_COUNT; i++) sqlite3_free(", "Memory.test_nothing_is_left_of_what_failed"),
    "SQLite: the files stand in the wrong order": (LITE_RECORD, "{{blob(row, DATA_FILE), blob(row, EXCLUSIONS_FILE),", "{{blob(row, EXCLUSIONS_FILE), blob(row, DATA_FILE),"),
    # SQLite: foldings
    "SQLite: foldings are not compared": (COMMON, "return caseless ? npss_caseless_extends(older, newer) : npss_extends(older, newer);", "return caseless ? npss_extends(older, newer) : npss_extends(older, newer);", "Foldings"),
    "SQLite: files without foldings come behind some": (LITE_FILES, "keeps_keys(older, newer, has_foldings(older));", "keeps_keys(older, newer, has_foldings(older) && has_foldings(newer));", "Foldings"),
    "SQLite: foldings are not recorded": (LITE_RAISE, "bound(put, 4, &held->each[FOLDING_FILE])", "sqlite3_bind_null(put, 4) == SQLITE_OK", "Foldings"),
    "SQLite: an older database keeps its columns": (LITE_RAISE, "if (folding_column(self->db, \"main\") == SQLITE_ERROR &&", "if (0 &&", "Foldings"),
    "SQLite: an extension without foldings raises": (LITE_RAISE, "WHEN NOT npss_is_raising_folding() ", "WHEN NOT npss_is_raising() ", "Foldings"),
    "SQLite: an older database keeps its trigger": (LITE_RAISE, "DROP TRIGGER IF EXISTS main.npss_record_update; CREATE TRIGGER \" UPDATE_TRIGGER;", "\";", "Foldings"),
    "SQLite: foldings that another one records are not looked at": (LITE_RECORD, "recorded == 2 * self->assigned + self->is_folded;", "recorded / 2 == self->assigned;", "Foldings"),
    "SQLite: attached databases have any foldings": (LITE_ATTACHED, "main ? \"NULL\" : \"a.folding\", other ? \"NULL\" : \"b.folding\"", "\"NULL\", \"NULL\"", "Beside"),
    "SQLite: an attached folding is told as a version": (LITE_ATTACHED, "number ? \"folding\" : \"version of Unicode\"", "number ? \"version of Unicode\" : \"folding\"", "Beside"),
    "SQLite: caseless keys of opened tables are forgotten": (LITE, "self->folded_own = 1;", "self->folded_own = 0;", "Beside"),
    "SQLite: a record with other foldings fits opened tables": (LITE_RECORD, "both = folds && has_foldings(&self->own);", "both = 0;", "Beside"),
    "SQLite: a caseless key is of another form": (LITE, "&(maker){npss_caseless_key, NPSS_NFKC, 0}", "&(maker){npss_caseless_key, NPSS_NFC, 0}", "Caseless"),
    "SQLite: a tried caseless key is refused": (LITE, "(maker){npss_caseless_key, 0, 1}", "(maker){npss_caseless_key, 0, 0}", "Caseless"),
    "SQLite: a match is made of forms": (LITE, "compare(call, count, given, npss_caseless_match);", "compare(call, count, given, npss_equivalent);", "Caseless"),
    "SQLite: an index stands on npss_caseless_match": (LITE, "{\"npss_caseless_match\", 2, ASK,", "{\"npss_caseless_match\", 2, KEY,", "Indexes"),
    "SQLite: a third blob may be a text": (LITE_FILES, "for (int i = 0; i < count; i++) {\n        if (sqlite3_value_type(given[i])", "for (int i = 0; i < count; i++) {\n        if (i < FOLDING_FILE && sqlite3_value_type(given[i])", "Foldings"),
    "SQLite: a third file that can't be opened is left out": (LITE_FILES, "which == FOLDING_FILE && errno == ENOENT", "which == FOLDING_FILE && errno", "Foldings"),
    # SQLite: keys
    "SQLite: the room is told one byte too large": (LITE, "text, length, self->room, ROOM);", "text, length, self->room, ROOM + 1);", "Memory.test_nothing_is_touched_out_of_bounds"),
    "SQLite: a large room is one byte short": (LITE, "sqlite3_malloc64(size);", "sqlite3_malloc64(size - 1);", "Memory.test_nothing_is_touched_out_of_bounds"),
    "SQLite: an index stands on npss_normalize": (LITE, "{\"npss_normalize\", 2, ASK,", "{\"npss_normalize\", 2, KEY,", "Indexes"),
    "SQLite: a key is not innocuous": (LITE, "KEY = SQLITE_UTF8 | SQLITE_DETERMINISTIC | SQLITE_INNOCUOUS", "KEY = SQLITE_UTF8 | SQLITE_DETERMINISTIC", "Indexes"),
    "SQLite: a schema raises": (LITE, "DIRECT = SQLITE_UTF8 | SQLITE_DIRECTONLY", "DIRECT = SQLITE_UTF8", "Indexes"),
    "SQLite: a key ends at U+0000": (LITE, "(char *)self->room, a.length, SQLITE_TRANSIENT", "(char *)self->room, memchr(self->room, 0, a.length) ? 1 : a.length, SQLITE_TRANSIENT", "Functions"),
    "SQLite: a text is taken as it stands": (LITE, "(*length = (size_t)sqlite3_value_bytes(value)) > 0", "(text = sqlite3_value_blob(value)) && (*length = (size_t)sqlite3_value_bytes(value)) > 0", "Functions"),
    "SQLite: a long key is not freed": (LITE, "room, a.length, sqlite3_free, SQLITE_UTF8", "room, a.length, SQLITE_TRANSIENT, SQLITE_UTF8", "Memory.test_nothing_is_touched_out_of_bounds"),
    "SQLite: a connection's tables are not closed": (LITE, "    npss_close(&self->tables);\n", "", "Memory.test_nothing_is_left_of_what_failed"),
    "SQLite: why it can't be loaded is not told": (LITE, "if (code != SQLITE_OK && error)", "if (0 && error)"),
}


def planted(folder, name):
    """A copy of databases/ with a bug in it, or in the page beside it; without one where none is named."""
    copy = shutil.copytree(ROOT / "databases", Path(folder, "databases"), ignore=shutil.ignore_patterns("__pycache__", "out", "*.o", "*.so"))
    shutil.copytree(ROOT / "fixtures", Path(folder, "fixtures"))
    shutil.copytree(ROOT / "tests" / "program" / "refusals", Path(folder, "tests", "program", "refusals"))
    Path(folder, PAGE).parent.mkdir()
    for page in (PAGE, MOVING):
        shutil.copy(ROOT / page, Path(folder, page))
    if name:
        file, old, new = PLANTS[name][:3]
        plant(Path(folder, file) if file == PAGE else copy / file, [(old, new)])
    return copy


def kind_of(name):
    """The extension whose tests find a bug."""
    return "sqlite" if name.startswith("SQLite: ") else "postgresql"


def end_servers(folder):
    """Ends the servers that a test left behind."""
    for file in Path(folder).glob("**/postmaster.pid"):
        try:
            os.kill(int(file.read_text().split()[0]), signal.SIGQUIT)
        except (ProcessLookupError, ValueError):
            pass


def fails(folder, words):
    """Whether a test fails, or comes to no end."""
    ran = subprocess.Popen(list(map(str, words)), env={**os.environ, "TMPDIR": str(folder)}, stdin=subprocess.DEVNULL, stdout=subprocess.PIPE,
                           stderr=subprocess.STDOUT, start_new_session=True)
    try:
        ran.communicate(timeout=1800)
    except subprocess.TimeoutExpired:
        os.killpg(ran.pid, signal.SIGKILL)
        ran.communicate()
    finally:
        end_servers(folder)
    return ran.returncode != 0


def built(copy, kind, prefix):
    """Builds the extension, without a warning; the words that test it."""
    words = ["make", "-s", "-C", copy / kind, f"NPSS={prefix}", "with_llvm=no"]
    made = subprocess.run(list(map(str, words)), stdout=subprocess.PIPE, stderr=subprocess.STDOUT, text=True, check=False)
    if made.returncode or "warning" in made.stdout:
        raise RuntimeError(f"the extension isn't built cleanly: {made.stdout}")
    if kind == "sqlite":
        return [databases.loading_python(), copy / kind / "test_sqlite.py", copy / kind / "out" / "npss.so"]
    return [sys.executable, copy / kind / "test_postgresql.py", prefix]


def is_found(kind, name, prefix, versions):
    """Whether the tests of an extension fail over a bug, or over none."""
    with tempfile.TemporaryDirectory() as folder:
        Path(folder).chmod(0o1777)  # valgrind writes there as the user of the servers
        words = [*built(planted(folder, name), kind, prefix), versions, *([Path(folder, "fixtures")] if kind == "postgresql" else []), "-f"]
        if name and fails(folder, [*words, *(PLANTS[name][3:] or FIRST[kind])]):
            return True
        return fails(folder, words)


def checked(tally, name, kind, planted_name, prefix, versions):
    """Counts whether a bug is found; that none is, where none is planted."""
    begun = time.time()
    try:
        found, why = is_found(kind, planted_name, prefix, versions), ""
    except RuntimeError as error:
        found, why = None, str(error)
    outcome = why or ("found" if found else "survived")
    print(f"{name}: {outcome} after {time.time() - begun:.0f} seconds", flush=True)
    return tally.check(name, found is bool(planted_name), outcome)


def main():
    parser = argparse.ArgumentParser()
    parser.add_argument("--only", default=[""], nargs="+", metavar="WORDS", help="the bugs alone whose names have one of these in them")
    parser.add_argument("--unchecked", action="store_true", help="don't run the tests over the extensions as they are")
    parser.add_argument("--prefix", type=Path, default=ROOT / "out" / "c")
    words = parser.parse_args()
    prefix, tally = words.prefix.resolve(), Tally()
    kinds = {name: kind_of(name) for name in PLANTS if any(some in name for some in words.only)}
    files, why = ucd.package_files()
    if files is None:
        sys.exit(f"tests/on_demand/database_plants.py: {why}")
    with tempfile.TemporaryDirectory() as folder:
        Path(folder).chmod(0o755)
        versions = Path(folder, "versions")
        versions.mkdir()
        databases.versions_below(files, versions)
        for kind in () if words.unchecked else sorted(set(kinds.values())):
            if not checked(tally, f"{kind} as it is", kind, None, prefix, versions):
                tally.finish()
        for name, kind in kinds.items():
            checked(tally, name, kind, name, prefix, versions)
    tally.finish()


if __name__ == "__main__":
    main()
