// The client inside the machine of vm-power-cuts, over Unix sockets.
//   vm-client look SOCKET           waits for the server, and tells what each place holds
//   vm-client write SOCKET FIRST    writers at work until the end: each tells which of its writes were answered, and flushed
//   vm-client ask SOCKET LINE       a line to the control port, and its answer
//   vm-client same FILE FILE        whether the files hold the same
// What the places are, and which one a write has by its number, vm-power-cuts works out in the same way.
#include <endian.h>
#include <stdint.h>
#include <stdio.h>
#include <stdlib.h>
#include <string.h>
#include <sys/socket.h>
#include <sys/un.h>
#include <sys/wait.h>
#include <termios.h>
#include <unistd.h>

enum { BLOCK = 512, PLACES = 512, WRITERS = 4, READ = 0, WRITE = 1, FLUSH = 3 };

static int server;
static uint64_t blocks;

static void fail(const char *what) {
    printf("client fails: %s\n", what);
    fflush(stdout);
    exit(1);
}

static void put(const void *bytes, size_t count) {
    for (const char *at = bytes; count > 0;) {
        ssize_t sent = write(server, at, count);
        if (sent <= 0) fail("cannot send");
        at += sent, count -= sent;
    }
}

static void take(void *bytes, size_t count) {
    for (char *at = bytes; count > 0;) {
        ssize_t came = read(server, at, count);
        if (came <= 0) fail("the connection ended");
        at += came, count -= came;
    }
}

static void reach(const char *path) {
    struct sockaddr_un address = {.sun_family = AF_UNIX};
    strncpy(address.sun_path, path, sizeof address.sun_path - 1);
    server = socket(AF_UNIX, SOCK_STREAM, 0);
    while (connect(server, (struct sockaddr *)&address, sizeof address) != 0) usleep(20000);
}

// The handshake, by EXPORT_NAME and without zeroes.
static void greet(const char *path) {
    char greeting[18];
    struct { uint32_t flags; uint64_t magic; uint32_t option, length; } __attribute__((packed)) hello =
        {htobe32(3), htobe64(0x49484156454f5054), htobe32(1), 0};
    struct { uint64_t size; uint16_t flags; } __attribute__((packed)) told;
    reach(path);
    take(greeting, sizeof greeting);
    if (memcmp(greeting, "NBDMAGICIHAVEOPT", 16) != 0) fail("no greeting");
    put(&hello, sizeof hello);
    take(&told, sizeof told);
    blocks = be64toh(told.size) / BLOCK;
}

static void call(uint16_t kind, uint64_t block, uint64_t *words) {
    struct { uint32_t magic; uint16_t flags, kind; uint64_t cookie, offset; uint32_t length; } __attribute__((packed)) asks =
        {htobe32(0x25609513), 0, htobe16(kind), 7, htobe64(block * BLOCK), htobe32(kind == FLUSH ? 0 : BLOCK)};
    struct { uint32_t magic, error; uint64_t cookie; } __attribute__((packed)) reply;
    put(&asks, sizeof asks);
    if (kind == WRITE) put(words, BLOCK);
    take(&reply, sizeof reply);
    if (be32toh(reply.magic) != 0x67446698 || reply.cookie != 7) fail("no reply");
    if (reply.error != 0) fail("a request is answered with an error");
    if (kind == READ) take(words, BLOCK);
}

static uint64_t mixed(uint64_t n) {
    n += 0x9e3779b97f4a7c15;
    n = (n ^ (n >> 30)) * 0xbf58476d1ce4e5b9;
    n = (n ^ (n >> 27)) * 0x94d049bb133111eb;
    return n ^ (n >> 31);
}

static uint64_t block_of(uint64_t place) {
    uint64_t share = blocks / PLACES;
    return place * share + mixed(place) % share;
}

static void look(void) {
    uint64_t words[BLOCK / 8];
    for (uint64_t place = 0; place < PLACES; place++) {
        call(READ, block_of(place), words);
        for (int n = 1; n < BLOCK / 8; n++)
            if (words[n] != words[0]) fail("a block is neither old nor new");
        printf("holds %lu %lu\n", place, be64toh(words[0]));
    }
    puts("looked");
}

// Writes blocks that tell the write's number in each word, one after the other.
static void work(uint64_t writer, uint64_t first) {
    uint64_t words[BLOCK / 8];
    for (uint64_t n = first + (writer << 32) + 1;; n++) {
        for (int at = 0; at < BLOCK / 8; at++) words[at] = htobe64(n);
        call(WRITE, block_of(mixed(n) % (PLACES / WRITERS) * WRITERS + writer), words);
        int flushes = mixed(~n) % 20 == 0;
        if (flushes) call(FLUSH, 0, NULL);
        if (flushes || n % 4 == 0) printf("%s %lu\n", flushes ? "flushed" : "answered", n);
        fflush(stdout);
    }
}

static void compare(const char *one, const char *other) {
    static char texts[2][1 << 20];
    FILE *files[2] = {fopen(one, "r"), fopen(other, "r")};
    size_t came = 1, theirs;
    if (files[0] == NULL || files[1] == NULL) fail("a leg cannot be opened");
    for (uint64_t at = 0; came > 0; at += came) {
        came = fread(texts[0], 1, sizeof texts[0], files[0]);
        theirs = fread(texts[1], 1, sizeof texts[1], files[1]);
        if (came != theirs || memcmp(texts[0], texts[1], came) != 0) {
            printf("legs differ behind byte %lu\n", at);
            return;
        }
    }
    puts("equal");
}

int main(int count, char **words) {
    if (count > 3 && strcmp(words[1], "write") == 0) {
        for (uint64_t writer = 0; writer < WRITERS; writer++)
            if (fork() == 0) greet(words[2]), work(writer, strtoull(words[3], NULL, 10));
        wait(NULL);
    } else if (count > 3 && strcmp(words[1], "same") == 0) {
        compare(words[2], words[3]);
    } else if (count > 3) {
        char text[4096];
        ssize_t came;
        reach(words[2]);
        dprintf(server, "%s\n", words[3]);
        shutdown(server, SHUT_WR);
        while ((came = read(server, text, sizeof text)) > 0) fwrite(text, 1, came, stdout);
    } else if (count > 2) {
        greet(words[2]), look();
    } else {
        return 2;
    }
    // All of it is told before anything else begins.
    fflush(stdout);
    tcdrain(1);
    return 0;
}
