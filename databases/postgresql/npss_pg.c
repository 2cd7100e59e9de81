/*
 * npss_pg.c
 *		The settings, and what is done when the library is loaded.
 */
#include "npss_pg.h"

#include "access/xact.h"
#include "miscadmin.h"
#include "utils/guc.h"
#include "utils/guc_tables.h"

#if PG_VERSION_NUM < 150000
#define MarkGUCPrefixReserved EmitWarningsOnPlaceholders
#endif

PG_MODULE_MAGIC;

static char *folder = NULL;
static char *wanted_version = NULL;
static bool are_defined = false;

/*
 * Defines the settings.  Within a parallel operation no value would be taken over that a file or a role sets, and CREATE
 * INDEX begins one before it looks its functions up.  So then they are left undefined, as placeholders.
 */
static void
define_settings(void)
{
	if (are_defined || IsInParallelMode())
		return;
	DefineCustomStringVariable("npss.folder", "The folder that has one folder for each Unicode version.", NULL,
							   &folder, "", PGC_SUSET, GUC_SUPERUSER_ONLY, NULL, NULL, NULL);
	DefineCustomStringVariable("npss.version",
							   "The version that CREATE EXTENSION npss records in place of the newest in npss.folder.", NULL,
							   &wanted_version, "", PGC_SUSET, 0, NULL, NULL, NULL);
	MarkGUCPrefixReserved("npss");
	are_defined = true;
}

/*
 * The value of a setting that is not defined yet, so that PostgreSQL keeps whatever anybody sets.  It counts where it comes from
 * a file, a database or a role, or where the session is a superuser's; else it is as good as not set.
 */
static const char *
placeholder(const char *name)
{
	struct config_generic **all;
	int			count;
	bool		is_superuser = superuser_arg(GetSessionUserId());

#if PG_VERSION_NUM >= 160000
	all = get_guc_variables(&count);
#else
	all = get_guc_variables();
	count = GetNumConfigOptions();
#endif
	for (int i = 0; i < count; i++)
	{
		struct config_string *found = (struct config_string *) all[i];

		if (all[i]->vartype == PGC_STRING && strcmp(all[i]->name, name) == 0)
			return is_superuser || all[i]->source < PGC_S_CLIENT ? *found->variable : NULL;
	}
	return NULL;
}

static const char *
setting(const char *name)
{
	const char *value;

	define_settings();
	value = are_defined ? GetConfigOption(name, true, false) : placeholder(name);
	return value != NULL ? value : "";
}

const char *
npss_folder(void)
{
	return setting("npss.folder");
}

const char *
npss_wanted_version(void)
{
	return setting("npss.version");
}

void		_PG_init(void);

void
_PG_init(void)
{
	define_settings();
	listen_to_record();
	if (process_shared_preload_libraries_in_progress && npss_folder()[0] != '\0')
		preload_versions();
}
