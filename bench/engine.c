/* What `test_bench engine` does, in plain C: transactions of two participants, one after the other, with a queue, a history
 * that keeps every event with its context, and for each entry the row that the journal is to have afterwards. Each copy that
 * the engine makes is made here too; nothing is proved, and calls of others are not looked for. */

#include <stdint.h>
#include <stdio.h>
#include <stdlib.h>
#include <string.h>

struct bytes {
    char *at;
    size_t length;
};

struct row {
    int phase, told, tries, joined;
    struct bytes names[2], doing, context;
};

enum kind { OFFERED, TAKEN, ANSWERED, TOLD };

struct entry {
    size_t number, session;
    enum kind kind;
    int byte;
    struct bytes context;
    uint64_t next_id, id;
    struct row *row;
};

struct waiting {
    int tries;
    struct bytes context;
};

struct machine {
    uint64_t id;
    int phase, step, told, tries, joined;
    int members[2];
    struct bytes saved;
    int held;
};

static const char *const NAMES[2] = {"check", "send"};

static struct entry *entries;
static size_t entry_count, entry_room, mark;
static struct waiting *queue;
static size_t queue_first, queue_count, queue_room;
static uint64_t next_id = 1;
static struct machine machine;

static void *memory(size_t size)
{
    void *at = malloc(size);
    if (!at)
        exit(4);
    return at;
}

static struct bytes copy(const char *at, size_t length)
{
    struct bytes bytes = {memory(length ? length : 1), length};
    memcpy(bytes.at, at, length);
    return bytes;
}

static struct row *row_of(const struct machine *m)
{
    struct row *row = memory(sizeof *row);
    row->phase = m->phase;
    row->told = m->told;
    row->tries = m->tries;
    row->joined = m->joined;
    for (int i = 0; i < m->joined; i++)
        row->names[i] = copy(NAMES[m->members[i]], strlen(NAMES[m->members[i]]));
    const char *doing = m->phase == 0 ? NAMES[m->step] : "";
    row->doing = copy(doing, strlen(doing));
    row->context = copy(m->saved.at, m->saved.length);
    return row;
}

static struct entry *add(enum kind kind)
{
    if (entry_count == 1048576)
        exit(3);
    if (entry_count == entry_room) {
        entry_room = entry_room ? 2 * entry_room : 4;
        entries = realloc(entries, entry_room * sizeof *entries);
        if (!entries)
            exit(4);
    }
    struct entry *entry = &entries[entry_count++];
    memset(entry, 0, sizeof *entry);
    entry->number = entry_count;
    entry->kind = kind;
    return entry;
}

static void offer(const struct bytes *context)
{
    if (queue_count == queue_room) {
        size_t room = queue_room ? 2 * queue_room : 4;
        struct waiting *wider = memory(room * sizeof *wider);
        for (size_t i = 0; i < queue_count; i++)
            wider[i] = queue[(queue_first + i) % queue_room];
        free(queue);
        queue = wider;
        queue_room = room;
        queue_first = 0;
    }
    add(OFFERED)->context = copy(context->at, context->length);
    queue[(queue_first + queue_count++) % queue_room] = (struct waiting){0, copy(context->at, context->length)};
}

static void take(void)
{
    if (machine.held || queue_count == 0)
        exit(3);
    struct waiting first = queue[queue_first];
    queue_first = (queue_first + 1) % queue_room;
    queue_count--;
    machine = (struct machine){.id = next_id++, .tries = first.tries, .saved = first.context, .held = 1};
    struct entry *entry = add(TAKEN);
    entry->next_id = next_id;
    entry->id = machine.id;
    entry->row = row_of(&machine);
}

static void answered(int byte, const struct bytes *context)
{
    if (!machine.held || machine.phase != 0 || mark != entry_count)
        exit(3);
    if (!(byte & 0x40))
        machine.members[machine.joined++] = machine.step;
    if (!(byte & 0x80)) {
        free(machine.saved.at);
        machine.saved = copy(context->at, context->length);
    }
    if (++machine.step == 2)
        machine.phase = 2;
    struct entry *entry = add(ANSWERED);
    entry->byte = byte;
    entry->context = copy(context->at, context->length);
    entry->id = machine.id;
    entry->row = row_of(&machine);
}

static void told(void)
{
    if (!machine.held || machine.phase != 2 || mark != entry_count)
        exit(3);
    struct entry *entry = add(TOLD);
    entry->id = machine.id;
    if (++machine.told < machine.joined) {
        entry->row = row_of(&machine);
    } else {
        free(machine.saved.at);
        machine.held = 0;
    }
}

int main(int count, char **words)
{
    char text[75] = {1, 7, 'r', 'e', 'q', 'u', 'e', 's', 't', 0, 64};
    memset(text + 11, '0', 64);
    struct bytes context = {text, sizeof text};
    for (long n = count > 1 ? atol(words[1]) : 0; n > 0; n--) {
        offer(&context);
        take();
        for (int i = 0; i < 2; i++) {
            mark = entry_count;
            answered(1, &context);
        }
        for (int i = 0; i < 2; i++) {
            mark = entry_count;
            told();
        }
        mark = entry_count;
    }
    return 0;
}
