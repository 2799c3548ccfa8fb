/* Areas between two forbidden stretches, and what stands about a buffer that lies between. */
#include "lend.h"

void *memcpy(void *to, const void *from, size_t bytes);
void *memset(void *place, int byte, size_t bytes);
int memcmp(const void *left, const void *right, size_t bytes);
int printf(const char *format, ...);
void exit(int status);
void _exit(int status);
long write(int file, const void *bytes, size_t count);
void *mmap(void *place, size_t bytes, int rights, int flags, int file, long offset);
int mprotect(void *place, size_t bytes, int rights);
void (*signal(int number, void (*handler)(int)))(int);

/* Of the system: nothing may be done with memory, or it may be read and written; memory that belongs to no file; a touch of memory
   that is forbidden. */
enum { FORBIDDEN = 0, OPEN = 3, OF_NO_FILE = 0x22, TOUCHED = 11 };

/* As many bytes as the largest page of a machine has; how many are looked at on each side of a buffer; and what a buffer is filled
   with. */
enum { PAGE = 65536, ABOUT = 64, PATTERN = 0xa5 };

typedef struct {
    uint8_t *begin; /* of what may be touched */
    size_t room;
    uint8_t *place; /* of the buffer that is lent */
    size_t bytes;
    uint8_t before[ABOUT], after[ABOUT]; /* what stands about it */
    size_t before_length, after_length;
} Area;
static Area areas[BUFFERS];

static void say_touched(int number)
{
    static const char SAID[] = "tests/exchange: a call touched memory outside of what it was lent\n";
    (void)number;
    (void)!write(1, SAID, sizeof SAID - 1);
    _exit(1);
}

static size_t whole_pages(size_t bytes)
{
    return (bytes + PAGE - 1) / PAGE * PAGE;
}

/* One page more than is needed, so that the area begins with a page of any size. */
static void make_area(Area *area, size_t room)
{
    size_t all = whole_pages(room) + 3 * PAGE;
    uint8_t *memory = mmap(0, all, FORBIDDEN, OF_NO_FILE, -1, 0);
    area->begin = memory + PAGE + (PAGE - (size_t)memory % PAGE) % PAGE;
    area->room = whole_pages(room);
    if (memory == (uint8_t *)-1 || mprotect(area->begin, area->room, OPEN) != 0) {
        printf("tests/exchange: no memory\n");
        exit(1);
    }
}

void make_areas(const size_t *rooms)
{
    for (size_t k = 0; k < BUFFERS; k++) {
        make_area(&areas[k], rooms[k] + 2 * ABOUT);
    }
    signal(TOUCHED, say_touched);
}

void fill(void *memory, size_t bytes)
{
    memset(memory, PATTERN, bytes);
}

/* What could be taken for a part of a text: digits, a minus, a space, ends of lines, a comment; or the pattern. */
static void fill_about(uint8_t *about, size_t k)
{
    static const char *const TEXTS[] = {"0", "9", "\n", "-", " ", "%", "\n7", "7\n", "0 0\n", "%\n", "\xa5"};
    const char *text = TEXTS[k % (sizeof TEXTS / sizeof TEXTS[0])];
    size_t at = 0;
    for (size_t i = 0; i < ABOUT; i++) {
        about[i] = (uint8_t)text[at];
        at = text[at + 1] == 0 ? 0 : at + 1;
    }
}

void *lend(Buffer buffer, Placement placement, const void *content, size_t bytes, size_t k)
{
    Area *area = &areas[buffer];
    area->bytes = bytes;
    area->before_length = placement == AT_BEGIN ? 0 : ABOUT;
    area->after_length = placement == AT_END ? 0 : ABOUT;
    if (bytes + area->before_length + area->after_length > area->room) {
        printf("tests/exchange: more is lent than there is room for\n");
        exit(1);
    }
    area->place = placement == AT_END ? area->begin + area->room - bytes : area->begin + area->before_length;
    fill_about(area->before, k + 3);
    fill_about(area->after, k);
    memcpy(area->place - area->before_length, area->before, area->before_length);
    memcpy(area->place + bytes, area->after, area->after_length);
    if (content != 0) {
        memcpy(area->place, content, bytes);
    } else {
        fill(area->place, bytes);
    }
    return area->place;
}

bool is_left(Buffer buffer, const void *content)
{
    const Area *area = &areas[buffer];
    return memcmp(area->place, content, area->bytes) == 0 &&
        memcmp(area->place - area->before_length, area->before, area->before_length) == 0 &&
        memcmp(area->place + area->bytes, area->after, area->after_length) == 0;
}
