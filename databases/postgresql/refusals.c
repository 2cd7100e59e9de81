/*
 * refusals.c
 *		The errors of forms that there are not, and of texts that are refused.
 */
#include "npss_pg.h"

#include "mb/pg_wchar.h"
#include "utils/builtins.h"

uint8
form_of(text *form)
{
	Bytes		name = bytes_of(form);
	uint8		named = form_named((const char *) name.at, name.length);

	if (named == 0)
		ereport(ERROR,
				(errcode(ERRCODE_INVALID_PARAMETER_VALUE),
				 errmsg("invalid normalization form: %s", text_to_cstring(form)),
				 errhint("The forms are nfc, nfd, nfkc and nfkd.")));
	return named;
}

/* How many characters stand before a byte. */
int
characters_before(Bytes input, uint64 place)
{
	return pg_mbstrlen_with_len((const char *) input.at, (int) place);
}

static bool
is_noncharacter(uint32 code)
{
	return (code & 0xFFFE) == 0xFFFE || (code >= 0xFDD0 && code <= 0xFDEF);
}

/* Raises the error of an answer that is neither done nor a question's no. */
void
refuse(npss_answer answer, Bytes input, Version *version)
{
	switch (answer.status)
	{
		case NPSS_UNASSIGNED:
			ereport(ERROR,
					(errcode(ERRCODE_CHARACTER_NOT_IN_REPERTOIRE),
					 errmsg("code point U+%04X is not assigned in Unicode version \"%s\"", answer.code, version->label),
					 errdetail("It is character %d of the text, at byte %llu.",
							   characters_before(input, answer.place) + 1, (unsigned long long) answer.place),
					 is_noncharacter(answer.code) ?
					 errhint("It is a noncharacter, which no version assigns.") :
					 errhint("The text has no key yet.  A later version may assign the code point: npss_raise() lets one in.")));
			break;
		case NPSS_NOT_UTF8:
			ereport(ERROR,
					(errcode(ERRCODE_CHARACTER_NOT_IN_REPERTOIRE),
					 errmsg("the text is not UTF-8"),
					 errdetail("It is up to byte %llu.", (unsigned long long) answer.place)));
			break;
		case NPSS_MEMORY:
			ereport(ERROR,
					(errcode(ERRCODE_OUT_OF_MEMORY),
					 errmsg("out of memory"),
					 errdetail("Failed in the npss library.")));
			break;
		default:
			elog(ERROR, "npss: status %u", answer.status);
	}
}
