/*
 * files.c
 *		The folder of versions, and the files of each.
 */
#include "npss_pg.h"

#include <fcntl.h>

#include "storage/fd.h"
#include "utils/builtins.h"
#include "utils/resowner.h"

/* ---------- failures */

/* Tells a failure, as loudly as `level` says. */
void
report(int level, const Failure *failure)
{
	ereport(level,
			(errcode(failure->sqlstate),
			 errmsg("%s", failure->message),
			 failure->detail ? errdetail("%s", failure->detail) : 0,
			 failure->is_of_folder ? errdetail_log("npss.folder is \"%s\".", npss_folder()) : 0,
			 failure->hint ? errhint("%s", failure->hint) : 0));
}

bool
fail(Failure *failure, int sqlstate, char *message, char *detail, char *hint)
{
	failure->sqlstate = sqlstate;
	failure->message = message;
	failure->detail = detail;
	failure->hint = hint;
	failure->is_of_folder = false;
	return false;
}

/* A failure that lies in npss.folder. */
static bool
fail_in_folder(Failure *failure, int sqlstate, char *message, char *hint)
{
	fail(failure, sqlstate, message, NULL, hint);
	failure->is_of_folder = true;
	return false;
}

/* ---------- the folder */

bool
has_folder(Failure *failure)
{
	if (npss_folder()[0] != '\0')
		return true;
	return fail(failure, ERRCODE_OBJECT_NOT_IN_PREREQUISITE_STATE, "npss.folder is not set", NULL,
				"A superuser sets npss.folder to a folder that has one folder for each Unicode version.");
}

/* The labels of the folder's folders, in no order. */
List *
labels_in_folder(Failure *failure)
{
	List	   *labels = NIL;
	struct dirent *entry;
	DIR		   *dir;

	if (!has_folder(failure))
		return NIL;
	dir = AllocateDir(npss_folder());
	while (dir != NULL && (entry = ReadDirExtended(dir, npss_folder(), LOG)) != NULL)
		if (is_label(entry->d_name, LABEL_SIZE))
			labels = lappend(labels, pstrdup(entry->d_name));
	if (dir != NULL)
		FreeDir(dir);
	if (labels == NIL)
		fail_in_folder(failure, ERRCODE_OBJECT_NOT_IN_PREREQUISITE_STATE, "npss.folder has no version",
					   "Put UnicodeData.txt and CompositionExclusions.txt into a folder of it that is named for the version, such as 15.0.");
	return labels;
}

/* ---------- the files of a version */

/* Reads a file of a version into palloc'd memory.  That of foldings may not be there. */
bool
read_named(const char *label, int which, Bytes *bytes, Failure *failure)
{
	const char *name = file_names[which];
	char	   *path = psprintf("%s/%s/%s", npss_folder(), label, name);
	int			file = OpenTransientFile(path, OPEN_A_FILE);
	uint8	   *room;
	bool		is_whole;

	if (file < 0 && which == FOLDING_FILE && errno == ENOENT)
		return true;
	if (file < 0)
	{
		int			sqlstate = errno == EACCES || errno == EPERM ? ERRCODE_INSUFFICIENT_PRIVILEGE : ERRCODE_UNDEFINED_FILE;
		char	   *message = psprintf("npss: could not open file \"%s/%s\" of npss.folder: %m", label, name);

		return fail_in_folder(failure, sqlstate, message,
							  psprintf("Put UnicodeData.txt and CompositionExclusions.txt into a folder of npss.folder that is "
									   "named \"%s\".", label));
	}
	if (!measure_file(file, &bytes->length))
	{
		CloseTransientFile(file);
		return fail_in_folder(failure, ERRCODE_CONFIG_FILE_ERROR,
							  psprintf("npss: \"%s/%s\" of npss.folder is not a file of at most %d bytes", label, name, MOST_OF_A_FILE), NULL);
	}
	bytes->at = room = palloc(bytes->length + 1);
	is_whole = read_file(file, room, bytes->length);
	CloseTransientFile(file);
	if (!is_whole)
		return fail_in_folder(failure, ERRCODE_IO_ERROR, psprintf("npss: could not read file \"%s/%s\" of npss.folder", label, name), NULL);
	return true;
}

/* The digest of bytes behind a varlena's head, made by the function that SQL has, which all versions of PostgreSQL have alike. */
static void
make_sha256(char *digest, bytea *all)
{
	ResourceOwner before = CurrentResourceOwner;
	bytea	   *made;

	if (before == NULL)			/* in the postmaster, where it would crash */
		CurrentResourceOwner = ResourceOwnerCreate(NULL, "npss");
	made = DatumGetByteaPP(DirectFunctionCall1(sha256_bytea, PointerGetDatum(all)));
	if (before == NULL)
	{
		ResourceOwner own = CurrentResourceOwner;

		CurrentResourceOwner = NULL;
		ResourceOwnerDelete(own);
	}
	Assert(VARSIZE_ANY_EXHDR(made) == (DIGEST_SIZE - 1) / 2);
	hex_encode(VARDATA_ANY(made), (DIGEST_SIZE - 1) / 2, digest);
	digest[DIGEST_SIZE - 1] = '\0';
	pfree(all);
}

/* The digest of the first two files. */
void
make_digest(char *digest, const Bytes *files)
{
	bytea	   *all = palloc(VARHDRSZ + digested_size(files));

	SET_VARSIZE(all, VARHDRSZ + digested_size(files));
	put_digested((uint8 *) VARDATA(all), files);
	make_sha256(digest, all);
}

/* The digest of the third file; empty where it isn't there. */
void
make_folding_digest(char *digest, const Bytes *files)
{
	const Bytes *folding = &files[FOLDING_FILE];

	digest[0] = '\0';
	if (folding->at != NULL)
		make_sha256(digest, (bytea *) cstring_to_text_with_len((const char *) folding->at, (int) folding->length));
}
