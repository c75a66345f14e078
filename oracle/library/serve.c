// The library in a process of its own. It reads batches of requests from standard input, makes each
// call on memory of its own with guards around every array, and writes back what the call answered
// and what it left in memory. oracle/README.md says how requests and replies are laid out. It is
// always an x86-64 program, as the library is, and has no C library: five system calls are enough.
#include "orgnevis.h"

enum { START = 1, OPEN, STEP, CLOSE, VIEW, LOAD, CHUNK, HUGE, SPOIL };

// What a reply's first word says: which guard, or what else that must stay, has changed.
enum {
    BEFORE_CARRY = 1, BEHIND_CARRY = 2, BEFORE_CHUNK = 4, BEHIND_CHUNK = 8,
    IN_CHUNK = 16, LATER_WORDS = 32, AROUND_STATE = 64, AROUND_OUT = 128
};

// What SPOIL asks for after each step, to see that it is noticed.
enum {
    TOUCH_BEFORE_CARRY = 1, TOUCH_BEHIND_CARRY, TOUCH_BEFORE_CHUNK, TOUCH_BEHIND_CHUNK,
    TOUCH_CHUNK, TOUCH_LATER_WORD, TOUCH_BEHIND_STATE, TOUCH_BEHIND_OUT, END, NEVER_END
};

enum { GUARD = 64, ROOM = 32768, BATCH = 16 << 20, REPLY = 1 << 18, PATIENCE = 20 };
static const uint64_t huge_length = (uint64_t)1 << 34;

// One lent buffer: `start` is where its bytes stand, `lent` what the library is handed.
struct buffer {
    uint8_t room[GUARD + 64 + ROOM + GUARD + 8];
    uint8_t *start;
    uint8_t *lent;
    size_t length;
    int huge;
};

static struct buffer carry, chunk;
static const uint8_t *chunk_as_sent;
static uint64_t state_room[8 + ORGNEVIS_STATE_WORDS + 8], out_room[8 + 16 + 8];
static uint64_t later_words[ORGNEVIS_STATE_WORDS - 9];
static uint64_t *const state = state_room + 8, *const out = out_room + 8;
static uint64_t batch[BATCH / 8], reply[REPLY / 8];
static size_t reply_words = 1;
static uint64_t spoil;
static uint8_t *huge_memory;

// ---- the system

static long call_system(long number, long a, long b, long c, long d, long e, long f)
{
    long answer;
    register long r10 __asm__("r10") = d;
    register long r8 __asm__("r8") = e;
    register long r9 __asm__("r9") = f;
    __asm__ volatile("syscall"
                     : "=a"(answer)
                     : "a"(number), "D"(a), "S"(b), "d"(c), "r"(r10), "r"(r8), "r"(r9)
                     : "rcx", "r11", "memory");
    return answer;
}

static void end(long status)
{
    for (;;) call_system(60, status, 0, 0, 0, 0, 0);
}

// Reads just so many bytes; 0 where the input has ended.
static int read_all(void *to, size_t length)
{
    size_t have = 0;
    while (have < length) {
        long got = call_system(0, 0, (long)((char *)to + have), (long)(length - have), 0, 0, 0);
        if (got <= 0) return 0;
        have += (size_t)got;
    }
    return 1;
}

static void write_all(const void *from, size_t length)
{
    size_t done = 0;
    while (done < length) {
        long got = call_system(1, 1, (long)((const char *)from + done), (long)(length - done), 0, 0, 0);
        if (got <= 0) end(3);
        done += (size_t)got;
    }
}

// What a compiler may call for a copy or a fill, in the library or here.
void *memcpy(void *to, const void *from, size_t n)
{
    void *answer = to;
    __asm__ volatile("rep movsb" : "+D"(to), "+S"(from), "+c"(n) : : "memory");
    return answer;
}

void *memset(void *to, int byte, size_t n)
{
    void *answer = to;
    __asm__ volatile("rep stosb" : "+D"(to), "+c"(n) : "a"(byte) : "memory");
    return answer;
}

void *memmove(void *to, const void *from, size_t n)
{
    if ((uintptr_t)to - (uintptr_t)from >= n) return memcpy(to, from, n);
    uint8_t *last = (uint8_t *)to + n - 1;
    const uint8_t *source = (const uint8_t *)from + n - 1;
    __asm__ volatile("std; rep movsb; cld" : "+D"(last), "+S"(source), "+c"(n) : : "memory");
    return to;
}

int memcmp(const void *x, const void *y, size_t n)
{
    const uint8_t *a = x, *b = y;
    for (size_t i = 0; i < n; i++)
        if (a[i] != b[i]) return a[i] < b[i] ? -1 : 1;
    return 0;
}

int bcmp(const void *x, const void *y, size_t n)
{
    return memcmp(x, y, n);
}

// ---- words and bytes, eight at a time

static uint64_t word_at(const uint8_t *p)
{
    uint64_t word;
    __builtin_memcpy(&word, p, 8);
    return word;
}

static void put_word_at(uint8_t *p, uint64_t word)
{
    __builtin_memcpy(p, &word, 8);
}

// Copies whole words, so up to seven bytes more than asked.
static void copy_up(uint8_t *to, const uint8_t *from, size_t length)
{
    for (size_t i = 0; i < length; i += 8) put_word_at(to + i, word_at(from + i));
}

static int same(const uint8_t *a, const uint8_t *b, size_t length)
{
    size_t i = 0;
    for (; i + 8 <= length; i += 8)
        if (word_at(a + i) != word_at(b + i)) return 0;
    for (; i < length; i++)
        if (a[i] != b[i]) return 0;
    return 1;
}

// ---- guards

static uint64_t guard_word(size_t i)
{
    return 0xA55A3CC3960FF069u + i;
}

static void guard_side(uint8_t *p)
{
    for (size_t i = 0; i < GUARD; i += 8) put_word_at(p + i, guard_word(i));
}

static int side_whole(const uint8_t *p)
{
    uint64_t changed = 0;
    for (size_t i = 0; i < GUARD; i += 8) changed |= word_at(p + i) ^ guard_word(i);
    return changed == 0;
}

// Puts bytes into a buffer, `shift` bytes on from an aligned place, and guards on both sides. No
// bytes with shift 255 are lent as a null pointer.
static void lend(struct buffer *b, const uint8_t *bytes, size_t length, uint64_t shift)
{
    if (length > ROOM) end(4);
    b->start = b->room + GUARD + (shift & 63);
    b->lent = shift == 255 && length == 0 ? NULL : b->start;
    b->length = length;
    b->huge = 0;
    copy_up(b->start, bytes, length);
    guard_side(b->start - GUARD);
    guard_side(b->start + length);
}

// Lends so many bytes that can be read, and not written: a write there ends the process.
static void lend_huge(struct buffer *b, size_t length)
{
    if (length > huge_length) end(4);
    if (!huge_memory) {
        long at = call_system(9, 0, (long)huge_length, 1, 0x4022, -1, 0);
        if (at < 0 && at > -4096) end(5);
        huge_memory = (uint8_t *)at;
    }
    b->lent = huge_memory;
    b->length = length;
    b->huge = 1;
}

static void guard_words(void)
{
    for (size_t i = 0; i < 8; i++) {
        state_room[i] = guard_word(i);
        state_room[8 + ORGNEVIS_STATE_WORDS + i] = guard_word(i);
    }
    for (size_t i = 0; i < 8 + 16 + 8; i++) out_room[i] = guard_word(i);
}

// What has changed that no call may change; `outs` words of out are the call's to write.
static uint64_t damage(size_t outs)
{
    uint64_t found = 0, changed = 0;
    if (!side_whole(carry.start - GUARD)) found |= BEFORE_CARRY;
    if (!carry.huge && !side_whole(carry.start + carry.length)) found |= BEHIND_CARRY;
    if (!side_whole(chunk.start - GUARD)) found |= BEFORE_CHUNK;
    if (!chunk.huge && !side_whole(chunk.start + chunk.length)) found |= BEHIND_CHUNK;
    if (!chunk.huge && !same(chunk.start, chunk_as_sent, chunk.length)) found |= IN_CHUNK;
    for (size_t i = 9; i < ORGNEVIS_STATE_WORDS; i++) changed |= state[i] ^ later_words[i - 9];
    if (changed) found |= LATER_WORDS;
    changed = 0;
    for (size_t i = 0; i < 8; i++) {
        changed |= state_room[i] ^ guard_word(i);
        changed |= state_room[8 + ORGNEVIS_STATE_WORDS + i] ^ guard_word(i);
    }
    if (changed) found |= AROUND_STATE;
    changed = 0;
    for (size_t i = 0; i < 8 + 16 + 8; i++)
        if (i < 8 || i >= 8 + outs) changed |= out_room[i] ^ guard_word(i);
    if (changed) found |= AROUND_OUT;
    return found;
}

// One byte or word where none may change, or no end at all.
static void do_spoil(void)
{
    if (carry.huge || chunk.huge) return;
    switch (spoil) {
    case TOUCH_BEFORE_CARRY: carry.start[-1] ^= 1; break;
    case TOUCH_BEHIND_CARRY: carry.start[carry.length] ^= 1; break;
    case TOUCH_BEFORE_CHUNK: chunk.start[-1] ^= 1; break;
    case TOUCH_BEHIND_CHUNK: chunk.start[chunk.length] ^= 1; break;
    case TOUCH_CHUNK: if (chunk.length) chunk.start[chunk.length - 1] ^= 1; break;
    case TOUCH_LATER_WORD: state[9] ^= 1; break;
    case TOUCH_BEHIND_STATE: state[ORGNEVIS_STATE_WORDS] ^= 1; break;
    case TOUCH_BEHIND_OUT: out[8] ^= 1; break;
    case END: end(9); break;
    case NEVER_END: call_system(37, 1, 0, 0, 0, 0, 0); for (;;) __asm__ volatile("");
    }
}

// ---- replies

// Sends what waits as one block: its length in bytes, then it.
static void send(void)
{
    reply[0] = (reply_words - 1) * 8;
    write_all(reply, reply_words * 8);
    reply_words = 1;
}

static void put_words(const uint64_t *words, size_t count)
{
    for (size_t i = 0; i < count; i++) reply[reply_words++] = words[i];
}

// Bytes, filled up with 0 to a whole word.
static void put_bytes(const uint8_t *bytes, size_t length)
{
    size_t i = 0;
    for (; i + 8 <= length; i += 8) reply[reply_words++] = word_at(bytes + i);
    if (i == length) return;
    uint64_t last = 0;
    for (size_t j = 0; i + j < length; j++) last |= (uint64_t)bytes[i + j] << (8 * j);
    reply[reply_words++] = last;
}

// What is sent for one call: damage, answer, the state's nine words, the carry, and a frame's body.
static void put_reply(size_t outs, int frame)
{
    if (reply_words * 8 + 2 * ROOM + 512 > REPLY) send();
    uint64_t found = damage(outs);
    put_words(&found, 1);
    put_words(out, outs);
    put_words(state, 9);
    if (!carry.huge) put_bytes(carry.start, carry.length);
    if (!frame || orgnevis_view(carry.lent, carry.length, chunk.lent, chunk.length,
                                out[4], out[5], out[6]) != 0) return;
    if (!carry.huge && !chunk.huge && out[6] <= ROOM)
        put_bytes((out[4] == ORGNEVIS_CARRY ? carry.lent : chunk.lent) + out[5], out[6]);
}

// ---- requests

static const uint64_t *load(const uint64_t *word)
{
    for (size_t i = 0; i < ORGNEVIS_STATE_WORDS; i++) state[i] = word[3 + i];
    for (size_t i = 9; i < ORGNEVIS_STATE_WORDS; i++) later_words[i - 9] = state[i];
    const uint64_t *bytes = word + 3 + ORGNEVIS_STATE_WORDS;
    lend(&carry, (const uint8_t *)bytes, word[1], word[2]);
    return bytes + (word[1] + 7) / 8;
}

static const uint64_t *load_chunk(const uint64_t *word)
{
    chunk_as_sent = (const uint8_t *)(word + 3);
    lend(&chunk, chunk_as_sent, word[1], word[2]);
    return word + 3 + (word[1] + 7) / 8;
}

static void step(void)
{
    orgnevis_step(state, carry.lent, carry.length, chunk.lent, chunk.length, out);
    if (spoil) do_spoil();
    put_reply(8, out[0] >= ORGNEVIS_UBX_FRAME && out[0] <= ORGNEVIS_SENTENCE);
}

// Does one request, and answers where the next one stands.
static const uint64_t *request(const uint64_t *word)
{
    guard_words();
    switch (word[0]) {
    case START:
        out[0] = orgnevis_start(state, carry.lent, carry.length, word[1], (uint16_t)word[2]);
        put_reply(1, 0);
        return word + 3;
    case OPEN:
        out[0] = orgnevis_open(state, carry.lent, carry.length, chunk.lent, chunk.length);
        put_reply(1, 0);
        return word + 1;
    case STEP: step(); return word + 1;
    case CLOSE:
        orgnevis_close(state, carry.lent, carry.length, chunk.lent, chunk.length, out);
        put_reply(16, 0);
        return word + 1;
    case VIEW:
        out[0] = orgnevis_view(carry.lent, carry.length, chunk.lent, chunk.length,
                               word[1], word[2], word[3]);
        put_reply(1, 0);
        return word + 4;
    case LOAD: return load(word);
    case CHUNK: return load_chunk(word);
    case HUGE:
        if (word[1]) lend_huge(&carry, word[1]);
        if (word[2]) lend_huge(&chunk, word[2]);
        return word + 3;
    case SPOIL: spoil = word[1]; return word + 2;
    }
    end(6);
    return word;
}

// A batch is its length in bytes, then its requests. After its replies comes an empty block. A call
// that takes longer than the patience ends the process by the alarm.
void serve(void)
{
    uint64_t length;
    while (read_all(&length, 8)) {
        if (length > BATCH || !read_all(batch, length)) end(7);
        call_system(37, PATIENCE, 0, 0, 0, 0, 0);
        const uint64_t *word = batch;
        while (word < batch + length / 8) word = request(word);
        send();
        if (reply[0] != 0) send();
    }
    end(0);
}

// The stack comes as the system hands it: aligned to 16 bytes before a call.
__asm__(".globl _start\n_start:\n    xor %ebp, %ebp\n    call serve\n");
