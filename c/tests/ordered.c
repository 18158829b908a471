/*
 * ordered - the instructions that read and write a registry's table in a test's calls: for aarch64
 *
 * It is linked to a test of one thread, with --wrap for kupaldiz_open, malloc and free. Once a
 * registry is opened nothing can be read from its table or written to it: each access ends in a
 * signal. The handler looks at the instruction, does what it says by a second mapping of the same
 * memory, and goes on after it. Any instruction but the four of sequentially consistent steps on a
 * word ends the program with status 1: a plain load or store, one that is weaker, and one that
 * works on a part of a word or on two.
 *
 * A load that begins a pair is done by the handler, so the store that ends the pair would find no
 * pair begun, and fail without an access. So that store is overwritten by an ordered store, whose
 * access is seen and done as what stood there.
 *
 * From each of these instructions, as it is met for the first time, the unwind tables have to lead
 * on to where the program began.
 *
 * What is done before the opening returns isn't looked at, nor what frees the table: nobody else
 * has it then. At its end the program says how often each of the four came to a table. Where
 * ORDERED_SITES names a file, the places of the instructions that came are written there, a line
 * each. With ORDERED_PLANT the program itself makes a plain load, which has to be seen.
 */
#include <execinfo.h>
#include <signal.h>
#include <sys/mman.h>
#include <ucontext.h>
#include <unistd.h>

#include "client.h"
#include "wrapped_heap.h"

#ifndef __aarch64__
#error "it reads the instructions of aarch64"
#endif

enum { MOST_TABLES = 16, MOST_CODE = 1 << 18, ZERO_REGISTER = 31, DEEPEST = 64, LONGEST_PAIR = 12 };

/* What an instruction does with a word. */
enum kind { LOAD, STORE, LOAD_EXCLUSIVE, STORE_EXCLUSIVE, KINDS };

/* The bits of an instruction that say that it is of a kind, and what they are then. */
static const struct form {
	uint32_t mask, bits;
	const char *name;
} FORMS[KINDS] = {
	[LOAD] = {0xfffffc00, 0xc8dffc00, "ldar"},
	[STORE] = {0xfffffc00, 0xc89ffc00, "stlr"},
	[LOAD_EXCLUSIVE] = {0xfffffc00, 0xc85ffc00, "ldaxr"},
	[STORE_EXCLUSIVE] = {0xffe0fc00, 0xc800fc00, "stlxr"},
};

/* A table's memory: where the library has it, and where the handler reads and writes it. */
static struct table {
	char *seen;
	char *behind;
	size_t bytes;
	bool closed;	/* its pages can't be accessed any more */
} tables[MOST_TABLES];

/* The bytes of the table of the opening under way; 0 while there is none. */
static size_t table_bytes;

static unsigned long counts[KINDS];

/*
 * Where the program began, as a stack tells it that needs no table of the library's; and how many
 * places didn't lead there, of how many.
 */
static void *home;
static unsigned long lost, places_met;

/*
 * By an instruction's distance from the beginning of the program's code, in instructions: whether
 * it was met, and what was overwritten there, or 0.
 */
static unsigned char met[MOST_CODE];
static uint32_t overwritten[MOST_CODE];

extern const char __executable_start[];

WRAPPED(kupaldiz_open);

static size_t table_pages(const struct table *table)
{
	size_t page = (size_t)sysconf(_SC_PAGESIZE);
	return (table->bytes + page - 1) / page * page;
}

/* The table that has this address, or NULL. */
static struct table *table_at(const void *address)
{
	for (unsigned i = 0; i < MOST_TABLES; i++) {
		const uintptr_t distance = (uintptr_t)address - (uintptr_t)tables[i].seen;
		if (tables[i].seen != NULL && distance < tables[i].bytes)
			return &tables[i];
	}
	return NULL;
}

static struct table *unused_table(void)
{
	for (unsigned i = 0; i < MOST_TABLES; i++)
		if (tables[i].seen == NULL)
			return &tables[i];
	fputs("ordered: too many registries at once\n", stderr);
	exit(1);
}

/* Memory that is mapped twice. */
static char *map_table(struct table *table)
{
	FILE *file = tmpfile();
	table->bytes = table_bytes;
	EXPECT(file != NULL && ftruncate(fileno(file), (off_t)table_pages(table)) == 0);
	const size_t pages = table_pages(table);
	table->seen = mmap(NULL, pages, PROT_READ | PROT_WRITE, MAP_SHARED, fileno(file), 0);
	table->behind = mmap(NULL, pages, PROT_READ | PROT_WRITE, MAP_SHARED, fileno(file), 0);
	EXPECT(table->seen != MAP_FAILED && table->behind != MAP_FAILED);
	table->closed = false;
	fclose(file);
	return table->seen;
}

void *__wrap_malloc(size_t size)
{
	return size != 0 && size == table_bytes ? map_table(unused_table()) : __real_malloc(size);
}

void __wrap_free(void *block)
{
	struct table *table = table_at(block);
	if (table == NULL) {
		__real_free(block);
		return;
	}
	munmap(table->seen, table_pages(table));
	munmap(table->behind, table_pages(table));
	table->seen = NULL;
}

static void refuse(const struct table *table, const void *address, uint64_t place,
    uint32_t instruction)
{
	fprintf(stderr, "ordered: the instruction %#x at %#lx comes to byte %ld of a table\n",
	    (unsigned)instruction, (unsigned long)place,
	    (long)((const char *)address - table->seen));
	_exit(1);
}

static enum kind kind_of(uint32_t instruction)
{
	for (enum kind kind = 0; kind < KINDS; kind++)
		if ((instruction & FORMS[kind].mask) == FORMS[kind].bits)
			return kind;
	return KINDS;
}

static void set_register(mcontext_t *machine, unsigned number, uint64_t value)
{
	if (number != ZERO_REGISTER)
		machine->regs[number] = value;
}

/*
 * Does what the instruction says. One thread runs: what it has loaded exclusively nobody has
 * written since.
 */
static void step(mcontext_t *machine, enum kind kind, uint32_t instruction, uint64_t *word)
{
	unsigned moved = instruction & 31;
	if (kind == LOAD || kind == LOAD_EXCLUSIVE)
		set_register(machine, moved, *word);
	else
		*word = moved == ZERO_REGISTER ? 0 : machine->regs[moved];
	if (kind == STORE_EXCLUSIVE)
		set_register(machine, instruction >> 16 & 31, 0);
	machine->pc += sizeof instruction;
}

/* Overwrites the store that ends the pair which this load begins. */
static void overwrite_end(uint32_t *load, uint64_t place, const struct table *table,
    const void *address)
{
	size_t page = (size_t)sysconf(_SC_PAGESIZE);
	uint32_t word = load[0] & 31U << 5;
	unsigned i = 1;
	while (i < LONGEST_PAIR && overwritten[place + i] == 0 &&
	    (kind_of(load[i]) != STORE_EXCLUSIVE || (load[i] & 31U << 5) != word))
		i++;
	if (i == LONGEST_PAIR)
		refuse(table, address, (uintptr_t)load, load[0]);
	if (overwritten[place + i] != 0)
		return;
	overwritten[place + i] = load[i];
	EXPECT(mprotect((void *)((uintptr_t)&load[i] / page * page), page,
	    PROT_READ | PROT_WRITE | PROT_EXEC) == 0);
	load[i] = FORMS[STORE].bits | word | (load[i] & 31);
	__builtin___clear_cache((char *)&load[i], (char *)&load[i + 1]);
}

/* The last place that the stack leads to. */
static void *outermost(void)
{
	void *places[DEEPEST];
	int depth = backtrace(places, DEEPEST);
	return depth > 0 ? places[depth - 1] : NULL;
}

/*
 * The instruction came to a table. The first time it is seen whether the stack leads home from
 * there.
 */
static void meet(uint64_t place, uint64_t address)
{
	if (met[place] != 0)
		return;
	met[place] = 1;
	places_met++;
	if (outermost() != home && lost++ == 0)
		fprintf(stderr, "ordered: no way home from %#lx\n", (unsigned long)address);
}

static void on_access(int number, siginfo_t *info, void *context)
{
	mcontext_t *machine = &((ucontext_t *)context)->uc_mcontext;
	const struct table *table = table_at(info->si_addr);
	uint32_t instruction;
	if (table == NULL || !table->closed) {
		signal(number, SIG_DFL);
		return;
	}
	memcpy(&instruction, (const void *)(uintptr_t)machine->pc, sizeof instruction);
	size_t distance = (size_t)((const char *)info->si_addr - table->seen);
	uint64_t place = (machine->pc - (uintptr_t)__executable_start) / sizeof instruction;
	if (place < MOST_CODE && overwritten[place] != 0)
		instruction = overwritten[place];
	enum kind kind = kind_of(instruction);
	if (kind == KINDS || distance % 8 != 0 || place + LONGEST_PAIR >= MOST_CODE)
		refuse(table, info->si_addr, machine->pc, instruction);
	counts[kind]++;
	if (kind == LOAD_EXCLUSIVE && met[place] == 0)
		overwrite_end((uint32_t *)(uintptr_t)machine->pc, place, table, info->si_addr);
	meet(place, machine->pc);
	step(machine, kind, instruction, (uint64_t *)(void *)(table->behind + distance));
}

/* The tables that were made by an opening can't be accessed from now on. How many there were. */
static unsigned close_tables(void)
{
	unsigned made = 0;
	for (unsigned i = 0; i < MOST_TABLES; i++)
		if (tables[i].seen != NULL && !tables[i].closed) {
			EXPECT(mprotect(tables[i].seen, table_pages(&tables[i]), PROT_NONE) == 0);
			tables[i].closed = true;
			made++;
			if (getenv("ORDERED_PLANT") != NULL)
				(void)*(volatile char *)tables[i].seen;
		}
	return made;
}

enum kupaldiz_result __wrap_kupaldiz_open(const struct kupaldiz_settings *settings,
    struct kupaldiz_keeper *keeper, struct kupaldiz_cpu *cpus, size_t count)
{
	home = outermost();
	table_bytes = settings != NULL ? TABLE_BYTES(settings->slots, settings->cpus) : 0;
	enum kupaldiz_result result = __real_kupaldiz_open(settings, keeper, cpus, count);
	table_bytes = 0;
	EXPECT(close_tables() == (result == KUPALDIZ_DONE ? 1 : 0));
	return result;
}

static void write_sites(const char *path)
{
	FILE *file = fopen(path, "w");
	EXPECT(file != NULL);
	for (size_t place = 0; place < MOST_CODE; place++)
		if (met[place] != 0)
			fprintf(file, "%lx\n", (unsigned long)((uintptr_t)__executable_start +
			    place * sizeof(uint32_t)));
	EXPECT(fclose(file) == 0);
}

static void report(void)
{
	const char *path = getenv("ORDERED_SITES");
	if (path != NULL)
		write_sites(path);
	fputs("ordered:", stderr);
	for (enum kind kind = 0; kind < KINDS; kind++)
		fprintf(stderr, " %s %lu,", FORMS[kind].name, counts[kind]);
	fprintf(stderr, " and no other instruction, at %lu places\n", places_met);
	if (lost != 0) {
		fprintf(stderr, "ordered: %lu of these places have no way home\n", lost);
		_exit(1);
	}
}

__attribute__((constructor)) static void watch(void)
{
	struct sigaction access = {.sa_sigaction = on_access, .sa_flags = SA_SIGINFO};
	EXPECT(sigaction(SIGSEGV, &access, NULL) == 0 && atexit(report) == 0);
}
