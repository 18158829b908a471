/*
 * device_switch [LOADS] - a driver is loaded, upgraded and unloaded while three CPUs open its
 * device
 *
 * An open looks the driver up and takes a local reference along: the open file. Its close may be
 * made by another thread, on another CPU. Whoever unloads the driver detaches it and waits until no
 * file is open; then the driver's memory is freed. Its entry's value points to that memory. An
 * upgrade replaces it, and no open finds none meanwhile. Each open counts in its driver: at the end
 * the counts of all drivers that were freed are the files that were opened.
 */
#include <inttypes.h>

#include "kupaldiz_waiting.h"
#include "workers.h"

enum { OPENERS = 3, CPUS = OPENERS + 1, USUAL_LOADS = 300, OPENS_A_LOAD = 60 };

/* A driver's memory: what a device operation writes, for each CPU, and how to read its version. */
struct softc {
	uint64_t opens[OPENERS];
	uint64_t version;
	uint64_t (*read)(const struct softc *softc);
};

static struct kupaldiz_keeper keeper;
static struct kupaldiz_cpu cpus[CPUS];
static pthread_mutex_t mutex = PTHREAD_MUTEX_INITIALIZER;
static struct kupaldiz_interlock interlock;
static struct kupaldiz_name disk;

/* A file that some thread opened, for any other to close; empty where none lies here. */
static pthread_mutex_t shelf_lock = PTHREAD_MUTEX_INITIALIZER;
static struct kupaldiz_local shelf;

static uint64_t read_version(const struct softc *softc)
{
	return softc->version;
}

static struct softc *load_softc(uint64_t version)
{
	struct softc *softc = calloc(1, sizeof *softc);
	expect("there is memory", softc != NULL);
	softc->version = version;
	softc->read = read_version;
	return softc;
}

/*
 * Lays a file on the shelf and takes what lay there. A reference is moved: the place that it left
 * isn't used again.
 */
static struct kupaldiz_local swap_file(struct kupaldiz_local file)
{
	pthread_mutex_lock(&shelf_lock);
	struct kupaldiz_local before = shelf;
	shelf = file;
	pthread_mutex_unlock(&shelf_lock);
	return before;
}

/* Uses a file: its driver is there, whatever happens meanwhile. */
static void use_file(const struct kupaldiz_local *file)
{
	const struct softc *softc = file->entry.pointer;
	expect("the driver is there", softc->read(softc) >= 1);
}

/* Opens the device, and works with it. The file is the reference to its driver. */
static void open_file(struct worker *self, struct kupaldiz_local *file)
{
	struct kupaldiz_cpu *cpu = &cpus[self->id];
	enum kupaldiz_result result = kupaldiz_get_local(cpu, KUPALDIZ_DRIVER, &disk, file);
	if (result == KUPALDIZ_NOT_FOUND) {
		self->tally.missed++;
		rest();
		return;
	}
	check("get_local", result);
	struct softc *softc = file->entry.pointer;
	softc->opens[self->id]++;
	count_done(self);
	rest();	/* the driver may be unloaded here, and stays */
	use_file(file);
}

/* Opens the device, and closes a file that another thread opened. */
static void *open_all(void *arg)
{
	struct worker *self = arg;
	while (!is_over()) {
		struct kupaldiz_local file = {0};
		open_file(self, &file);
		struct kupaldiz_local other = swap_file(file);
		if (other.entry.number == 0)
			continue;
		use_file(&other);
		check("release", kupaldiz_release_local(&interlock, &cpus[self->id], &other));
	}
	return NULL;
}

/* Waits until no file of this driver is open, and frees its memory. How often it was opened. */
static uint64_t unload(const struct kupaldiz_entry *gone)
{
	struct softc *softc = gone->pointer;
	uint64_t opens = 0;
	check("wait", kupaldiz_destroy_wait(&interlock, &cpus[OPENERS], gone->number, NULL, NULL));
	for (unsigned i = 0; i < OPENERS; i++)
		opens += softc->opens[i];
	memset(softc, 0xdb, sizeof *softc);
	free(softc);
	return opens;
}

/* Loads a driver, lets it be opened, upgrades and unloads it. How often both were opened. */
static uint64_t load_and_unload(uint64_t version)
{
	struct kupaldiz_cpu *cpu = &cpus[OPENERS];
	const uint64_t first = kupaldiz_value(load_softc(version));
	const uint64_t second = kupaldiz_value(load_softc(version + 1));
	struct kupaldiz_entry gone;
	pthread_mutex_lock(&mutex);
	check("attach", kupaldiz_attach(&keeper, cpu, &disk, first, NULL));
	pthread_mutex_unlock(&mutex);
	wait_for_done(OPENS_A_LOAD / 2);
	pthread_mutex_lock(&mutex);
	check("replace", kupaldiz_replace(&keeper, cpu, &disk, second, &gone, NULL));
	pthread_mutex_unlock(&mutex);
	uint64_t opens = unload(&gone);
	wait_for_done(OPENS_A_LOAD / 2);
	pthread_mutex_lock(&mutex);
	check("detach", kupaldiz_detach(&keeper, cpu, KUPALDIZ_DRIVER, &disk, &gone));
	pthread_mutex_unlock(&mutex);
	return opens + unload(&gone);
}

int main(int argc, char **argv)
{
	const uint64_t loads = argc == 2 ? strtoull(argv[1], NULL, 10) : USUAL_LOADS;
	const struct kupaldiz_settings settings = KUPALDIZ_SETTINGS(CPUS, 2);
	static struct worker openers[OPENERS];
	uint64_t in_drivers = 0;
	disk = name_of("disk");
	interlock = kupaldiz_interlock_of_mutex(&keeper, &mutex);
	check("open", kupaldiz_open(&settings, &keeper, cpus, CPUS));
	start_workers(openers, OPENERS, open_all);
	for (uint64_t version = 1; version <= loads; version++)
		in_drivers += load_and_unload(version);
	const struct tally opens = end_workers(openers, OPENERS);
	expect("no file is open", shelf.entry.number == 0);
	expect("each open is counted in a driver that was freed", opens.done == in_drivers);
	check("close", kupaldiz_close(&keeper, cpus, CPUS));
	printf("opens %" PRIu64 "\nno driver %" PRIu64 "\n", opens.done, opens.missed);
	printf("unloads %" PRIu64 "\n", loads);
	return 0;
}
