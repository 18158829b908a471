/*
 * names - names of any bytes and of ids, there and back, what is no name, and the texts of results
 *
 * Of names that are texts, and of those of ids, the tests within rust/src/name.rs compare what the
 * archive makes with what the crate makes.
 */
#include "client.h"

enum { NUMBERS = 300, ROOM = 2 * KUPALDIZ_NAME_ROOM, SPOILT = 'X' };

static char text[ROOM];

/* So many bytes of the text were written, at most. */
static bool wrote(size_t bytes)
{
	for (size_t i = bytes; i < ROOM; i++)
		if (text[i] != SPOILT)
			return false;
	return true;
}

static enum kupaldiz_result format(const struct kupaldiz_name *name, size_t room)
{
	memset(text, SPOILT, sizeof text);
	return kupaldiz_name_format(name, text, room);
}

/* Without room for all bytes and a zero nothing is written; else they are, and nothing else. */
static void check_text(const struct kupaldiz_name *name, const char *bytes, size_t length)
{
	for (size_t room = 0; room <= ROOM; room++) {
		const bool fits = room > length;
		EXPECT(format(name, room) == (fits ? KUPALDIZ_DONE : KUPALDIZ_NO_ROOM));
		EXPECT(wrote(fits ? length + 1 : 0));
		EXPECT(!fits || (memcmp(text, bytes, length) == 0 && text[length] == 0));
	}
}

/* The name has these bytes, the first one highest, and zeros up to 16. */
static void check_words(const struct kupaldiz_name *name, const char *bytes, size_t length)
{
	for (unsigned i = 0; i < KUPALDIZ_NAME_BYTES; i++) {
		const uint64_t word = i < 8 ? name->high : name->low;
		const unsigned char byte = i < length ? (unsigned char)bytes[i] : 0;
		EXPECT((word >> (56 - 8 * (i % 8)) & 0xff) == byte);
	}
}

/* These bytes give a name that has them all, except zeros at the end. */
static void check_any(const char *bytes, size_t length)
{
	struct kupaldiz_name name;
	DONE(kupaldiz_name_of_bytes(bytes, length, &name));
	while (bytes[length - 1] == '\0')
		length--;
	check_text(&name, bytes, length);
	check_words(&name, bytes, length);
}

/* Each byte at this place, alone and behind letters. */
static void check_place(size_t place, size_t length)
{
	char bytes[KUPALDIZ_NAME_BYTES] = {0};
	for (unsigned byte = 1; byte < 256; byte++) {
		bytes[place] = (char)byte;
		check_any(bytes, length);
	}
	memset(bytes, 'a', place);
	for (unsigned byte = place == 0; byte < 256; byte++) {
		bytes[place] = (char)byte;
		check_any(bytes, length);
	}
}

/* What gives no name, one wrong thing before the next. Nothing is written. */
static void check_refused(void)
{
	static const char zeros[KUPALDIZ_NAME_BYTES + 1];
	static const struct {
		const char *bytes;
		size_t length;
		enum kupaldiz_result result;
	} rows[] = {
		{NULL, 0, KUPALDIZ_NULL}, {NULL, 2, KUPALDIZ_NULL}, {NULL, SIZE_MAX, KUPALDIZ_NULL},
		{zeros, 17, KUPALDIZ_NAME_TOO_LONG}, {"a", SIZE_MAX, KUPALDIZ_NAME_TOO_LONG},
		{"abcdefghijklmnopq", 17, KUPALDIZ_NAME_TOO_LONG}, {"a", 0, KUPALDIZ_BAD_NAME},
		{zeros, 0, KUPALDIZ_BAD_NAME}, {zeros, 1, KUPALDIZ_BAD_NAME},
		{zeros, 16, KUPALDIZ_BAD_NAME},
	};
	for (size_t i = 0; i < COUNT_OF(rows); i++) {
		const char *bytes = rows[i].bytes;
		struct kupaldiz_name name = {1, 2};
		EXPECT(kupaldiz_name_of_bytes(bytes, rows[i].length, &name) == rows[i].result);
		IS(NULL, kupaldiz_name_of_bytes(bytes, rows[i].length, NULL));
		EXPECT(name.high == 1 && name.low == 2);
	}
	IS(NULL, kupaldiz_name_of_bytes("wm", 2, NULL));
}

/* What isn't written out. */
static void check_no_text(void)
{
	const struct kupaldiz_name none = {0, 0}, wm = name_of("wm");
	IS(NULL, format(NULL, ROOM));
	IS(BAD_NAME, format(&none, ROOM));
	IS(BAD_NAME, format(&none, 0));
	EXPECT(wrote(0));
	IS(NULL, kupaldiz_name_format(NULL, NULL, 0));
	IS(NULL, kupaldiz_name_format(&wm, NULL, 1));
	IS(NULL, kupaldiz_name_format(&none, NULL, 1));
	IS(NO_ROOM, kupaldiz_name_format(&wm, NULL, 0));
	IS(BAD_NAME, kupaldiz_name_format(&none, NULL, 0));
}

/* An id has a name of thirteen bytes, which gives the id back. Names order as the ids do. */
static void check_ids(void)
{
	static const struct {
		uint64_t id;
		const char *name;
	} rows[] = {
		{0, "a000000000000"}, {1, "a000000000001"}, {31, "a00000000000v"},
		{32, "a000000000010"}, {UINT64_C(1) << 60, "b000000000000"},
		{UINT64_MAX, "pvvvvvvvvvvvv"},
	};
	struct kupaldiz_name last = {0, 0};
	for (size_t i = 0; i < COUNT_OF(rows); i++) {
		const struct kupaldiz_name wanted = name_of(rows[i].name);
		struct kupaldiz_name name = {0, 0};
		uint64_t id = 99;
		DONE(kupaldiz_name_of_id(rows[i].id, &name));
		DONE(kupaldiz_id_of_name(&name, &id));
		EXPECT(same_name(&name, &wanted) && id == rows[i].id);
		EXPECT(name.high > last.high || (name.high == last.high && name.low > last.low));
		DONE(kupaldiz_name_of_id(rows[i].id, NULL));
		DONE(kupaldiz_id_of_name(&name, NULL));
		last = name;
	}
}

/* What is no id's name is refused, and nothing is written. */
static void check_no_ids(void)
{
	static const char *const rows[] = {"wm", "a00000000000", "q000000000000", "a00000000000w",
	    "A000000000000", "a0000000000000"};
	const struct kupaldiz_name none = {0, 0};
	uint64_t id = 99;
	for (size_t i = 0; i < COUNT_OF(rows); i++) {
		const struct kupaldiz_name name = name_of(rows[i]);
		IS(BAD_NAME, kupaldiz_id_of_name(&name, &id));
		IS(BAD_NAME, kupaldiz_id_of_name(&name, NULL));
	}
	IS(BAD_NAME, kupaldiz_id_of_name(&none, &id));
	IS(NULL, kupaldiz_id_of_name(NULL, &id));
	IS(NULL, kupaldiz_id_of_name(NULL, NULL));
	EXPECT(id == 99);
}

/* The numbers of the results that calls return. */
static bool is_result(unsigned number)
{
	static const unsigned none[] = {9, 67, 70, 72, 80};
	for (size_t i = 0; i < COUNT_OF(none); i++)
		if (number == none[i])
			return false;
	return number <= KUPALDIZ_NEEDS_DRIVER ||
	    (number >= KUPALDIZ_OUTSIDE && number <= KUPALDIZ_CROWDED);
}

/*
 * Each result has a text of its own, the same string each time, and any other number has another.
 */
static void check_strings(void)
{
	const char *none = kupaldiz_strerror((enum kupaldiz_result)NUMBERS);
	EXPECT(none != NULL && kupaldiz_strerror((enum kupaldiz_result)UINT32_MAX) == none);
	for (unsigned number = 0; number < NUMBERS; number++) {
		const char *string = kupaldiz_strerror((enum kupaldiz_result)number);
		EXPECT(string != NULL && *string != 0);
		EXPECT(string == kupaldiz_strerror((enum kupaldiz_result)number));
		EXPECT((strcmp(string, none) != 0) == is_result(number));
		for (unsigned other = 0; other < number && is_result(number); other++)
			EXPECT(strcmp(string, kupaldiz_strerror((enum kupaldiz_result)other)) != 0);
	}
}

int main(void)
{
	for (size_t length = 1; length <= KUPALDIZ_NAME_BYTES; length++)
		for (size_t place = 0; place < length; place++)
			check_place(place, length);
	check_refused();
	check_no_text();
	check_ids();
	check_no_ids();
	check_strings();
	puts("names, ids and results come back");
	return 0;
}
