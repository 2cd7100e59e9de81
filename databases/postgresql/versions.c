/*
 * versions.c
 *		The tables that the files of a version make, and which are kept open.
 */
#include "npss_pg.h"

#include "utils/memutils.h"

static Version *versions = NULL;	/* all that are kept open in this process */

/* Why files make no version. */
static bool
fail_open(Failure *failure, const char *label, npss_answer answer)
{
	char		fault[FAULT_SIZE];

	if (answer.status == NPSS_MEMORY)
		return fail(failure, ERRCODE_OUT_OF_MEMORY, "out of memory",
					psprintf("Failed to open the tables of Unicode version \"%s\".", label), NULL);
	put_fault(fault, answer);
	return fail(failure, ERRCODE_CONFIG_FILE_ERROR,
				psprintf("npss: the files of Unicode version \"%s\" are faulty", label), psprintf("%s.", fault), NULL);
}

static void
close_version(void *version)
{
	npss_close(&((Version *) version)->handle);
}

/* Memory for a version, in a context below the present one, whose end closes the handle. */
static Version *
make_version(void)
{
	MemoryContext context = AllocSetContextCreate(CurrentMemoryContext, "npss version", ALLOCSET_SMALL_SIZES);
	Version    *version = MemoryContextAllocZero(context, sizeof(Version));
	MemoryContextCallback *end = MemoryContextAllocZero(context, sizeof(MemoryContextCallback));

	version->context = context;
	end->func = close_version;
	end->arg = version;
	MemoryContextRegisterResetCallback(context, end);
	return version;
}

/*
 * Reads the files of a version into palloc'd memory, and digests them: with the foldings that are there where `folding` is NULL;
 * else with those of that digest alone, where these are there.
 */
static bool
read_files(Version *version, const char *label, const char *folding, Bytes *files, Failure *failure)
{
	bool		is_read = false;

	if (!read_named(label, DATA_FILE, &files[DATA_FILE], failure) || !read_named(label, EXCLUSIONS_FILE, &files[EXCLUSIONS_FILE], failure))
		return false;
	if (folding == NULL || folding[0] != '\0')
		is_read = read_named(label, FOLDING_FILE, &files[FOLDING_FILE], failure);
	if (!is_read && folding == NULL)
		return false;
	make_digest(version->digest, files);
	if (is_read)
		make_folding_digest(version->folding, files);
	if (folding != NULL && strcmp(version->folding, folding) != 0)
	{
		files[FOLDING_FILE].at = NULL;
		version->folding[0] = '\0';
	}
	return true;
}

/* Fills in a version from its files, as read_files reads them. */
static bool
fill_version(Version *version, const char *label, const char *folding, Failure *failure)
{
	Bytes		files[FILE_COUNT] = {{0}};
	npss_answer answer;

	if (!read_files(version, label, folding, files, failure))
		return false;
	answer = open_files(&version->handle, files);
	if (answer.status != NPSS_DONE)
		return fail_open(failure, label, answer);
	version->assigned = (int64) npss_count(&version->handle).length;
	version->ascii = keeps_ascii(&version->handle);
	strlcpy(version->label, label, LABEL_SIZE);
	return true;
}

/*
 * The version of a label, opened from the folder, in the present memory context: keep_version keeps it.  NULL where it
 * fails.  It has the foldings that are there where `folding` is NULL; else those of that digest alone, where these are there.
 */
Version *
open_version(const char *label, const char *folding, Failure *failure)
{
	MemoryContext work,
				before;
	Version    *version;
	bool		filled;

	if (!has_folder(failure))
		return NULL;
	if (!is_label(label, LABEL_SIZE))
	{
		fail(failure, ERRCODE_INVALID_PARAMETER_VALUE, psprintf("npss: \"%s\" is not the name of a version", label), NULL,
			 psprintf("A name such as 15.0 has at most %d letters, digits, dots, hyphens and underscores.", LABEL_SIZE - 1));
		return NULL;
	}
	version = make_version();
	work = AllocSetContextCreate(CurrentMemoryContext, "npss files", ALLOCSET_DEFAULT_SIZES);
	before = MemoryContextSwitchTo(work);
	filled = fill_version(version, label, folding, failure);
	MemoryContextSwitchTo(before);
	if (!filled)
	{
		/* The failure's words are in the context that ends. */
		failure->message = pstrdup(failure->message);
		failure->detail = failure->detail ? pstrdup(failure->detail) : NULL;
		failure->hint = failure->hint ? pstrdup(failure->hint) : NULL;
		MemoryContextDelete(version->context);
	}
	MemoryContextDelete(work);
	return filled ? version : NULL;
}

/* An open version of this digest, or NULL; where the digest of foldings isn't empty, one with these. */
Version *
find_version(const char *digest, const char *folding)
{
	for (Version *version = versions; version != NULL; version = version->next)
		if (strcmp(version->digest, digest) == 0 && (folding[0] == '\0' || strcmp(version->folding, folding) == 0))
			return version;
	return NULL;
}

static bool
is_kept(const Version *asked)
{
	for (Version *version = versions; version != NULL; version = version->next)
		if (version == asked)
			return true;
	return false;
}

/* Keeps a version for the rest of the session. */
void
keep_version(Version *version)
{
	if (is_kept(version))
		return;
	MemoryContextSetParent(version->context, TopMemoryContext);
	version->next = versions;
	versions = version;
}

/* Closes a version that is not kept. */
void
shut_version(Version *version)
{
	if (!is_kept(version))
		MemoryContextDelete(version->context);
}

/* Closes all versions that are kept but this one and those that were preloaded. */
void
shut_versions_but(Version *kept)
{
	Version   **at = &versions;

	while (*at != NULL)
	{
		Version    *version = *at;

		if (version == kept || version->preloaded)
			at = &version->next;
		else
		{
			*at = version->next;
			MemoryContextDelete(version->context);
		}
	}
}

/* Opens all versions of the folder in the postmaster.  A fault is told in the log; each use tells it again. */
void
preload_versions(void)
{
	Failure		failure;
	ListCell   *at;

	foreach(at, labels_in_folder(&failure))
	{
		Version    *version = open_version(lfirst(at), NULL, &failure);

		if (version == NULL)
		{
			report(LOG, &failure);
			version = open_version(lfirst(at), "", &failure);
		}
		if (version == NULL)
			continue;
		if (find_version(version->digest, version->folding) != NULL)
			MemoryContextDelete(version->context);
		else
		{
			version->preloaded = true;
			keep_version(version);
		}
	}
}
