// ESP in tunnel mode with AES-128-GCM (RFC 4303, RFC 4106) by OpenSSL, over IPv4, and sockets of this machine.
#include <arpa/inet.h>
#include <openssl/evp.h>
#include <stdint.h>
#include <stdio.h>
#include <stdlib.h>
#include <string.h>
#include <sys/socket.h>

enum { OUTER = 20, ESP_HEAD = 16, ICV = 16, WINDOW = 64, ROOM = 65575 };

// The octets of addresses: those of the gateway and of its peer, and where a packet comes from and goes to inside.
static const uint8_t OWN[4] = {192, 0, 2, 1}, PEER[4] = {198, 51, 100, 1}, NEAR[4] = {10, 1, 0, 5}, FAR[4] = {10, 2, 0, 9};

// One direction of an association: the last number sent or taken, and which of the last 64 were taken.
struct half {
    EVP_CIPHER_CTX *cipher;
    uint32_t spi, number;
    uint64_t taken;
    uint8_t salt[4];
};

static void fail(const char *what) {
    perror(what);
    exit(1);
}

static void put16(uint8_t *at, unsigned n) {
    at[0] = (uint8_t)(n >> 8);
    at[1] = (uint8_t)n;
}

static void put32(uint8_t *at, uint32_t n) {
    put16(at, n >> 16);
    put16(at + 2, n & 0xffff);
}

static uint32_t get32(const uint8_t *at) {
    return (uint32_t)at[0] << 24 | (uint32_t)at[1] << 16 | (uint32_t)at[2] << 8 | at[3];
}

static unsigned checksum(const uint8_t *head) {
    uint32_t sum = 0;
    for (int i = 0; i < OUTER; i += 2) sum += (uint32_t)head[i] << 8 | head[i + 1];
    sum = (sum & 0xffff) + (sum >> 16);
    return ~((sum & 0xffff) + (sum >> 16)) & 0xffff;
}

static void put_head(uint8_t *head, size_t length, unsigned id, unsigned protocol, const uint8_t *from, const uint8_t *to) {
    memset(head, 0, OUTER);
    head[0] = 0x45;
    put16(head + 2, (unsigned)length);
    put16(head + 4, id);
    head[6] = 0x40;
    head[8] = 64;
    head[9] = (uint8_t)protocol;
    memcpy(head + 12, from, 4);
    memcpy(head + 16, to, 4);
    put16(head + 10, checksum(head));
}

// A half with this key of 16 octets and a salt of 4, in hex digits.
static struct half half_of(const char *hex, uint32_t spi, int seals) {
    struct half made = {EVP_CIPHER_CTX_new(), spi, 0, 0, {0}};
    uint8_t key[20];
    for (int i = 0; i < 20; i++) {
        unsigned octet;
        if (sscanf(hex + 2 * i, "%2x", &octet) != 1) fail("key");
        key[i] = (uint8_t)octet;
    }
    memcpy(made.salt, key + 16, 4);
    if (EVP_CipherInit_ex(made.cipher, EVP_aes_128_gcm(), NULL, key, NULL, seals) != 1) fail("cipher");
    return made;
}

// Begins the cipher for the packet whose SPI, number and IV stand at `esp`.
static void begin(struct half *h, const uint8_t *esp) {
    uint8_t nonce[12];
    int n;
    memcpy(nonce, h->salt, 4);
    memcpy(nonce + 4, esp + 8, 8);
    if (EVP_CipherInit_ex(h->cipher, NULL, NULL, NULL, nonce, -1) != 1 || EVP_CipherUpdate(h->cipher, NULL, &n, esp, 8) != 1) fail("nonce");
}

// Seals an inner IPv4 packet with the next number into `out`, and answers how many octets that are.
static size_t seal(struct half *h, const uint8_t *inner, size_t size, uint8_t *out, const uint8_t *from, const uint8_t *to) {
    uint8_t *esp = out + OUTER, *text = esp + ESP_HEAD;
    size_t pad = (4 - (size + 2) % 4) % 4, length = size + pad + 2;
    int n;
    h->number++;
    put32(esp, h->spi);
    put32(esp + 4, h->number);
    put32(esp + 8, 0);
    put32(esp + 12, h->number);
    memcpy(text, inner, size);
    for (size_t i = 0; i < pad; i++) text[size + i] = (uint8_t)(i + 1);
    text[length - 2] = (uint8_t)pad;
    text[length - 1] = 4;
    begin(h, esp);
    if (EVP_CipherUpdate(h->cipher, text, &n, text, (int)length) != 1) fail("seal");
    if (EVP_CipherFinal_ex(h->cipher, text + length, &n) != 1) fail("seal");
    if (EVP_CIPHER_CTX_ctrl(h->cipher, EVP_CTRL_AEAD_GET_TAG, ICV, text + length) != 1) fail("tag");
    put_head(out, OUTER + ESP_HEAD + length + ICV, h->number & 0xffff, 50, from, to);
    return OUTER + ESP_HEAD + length + ICV;
}

// Whether this number is one to take: not 0, not left of the window, and not taken before.
static int is_fresh(const struct half *h, uint32_t number) {
    if (number > h->number) return 1;
    uint32_t back = h->number - number;
    return number != 0 && back < WINDOW && !(h->taken >> back & 1);
}

static void take(struct half *h, uint32_t number) {
    if (number > h->number) {
        uint32_t on = number - h->number;
        h->taken = (on < WINDOW ? h->taken << on : 0) | 1;
        h->number = number;
    } else {
        h->taken |= (uint64_t)1 << (h->number - number);
    }
}

// Opens a datagram into `out`. The inner packet's octets are counted; -1 is a datagram that isn't to be given.
static long opened(struct half *h, const uint8_t *datagram, size_t size, uint8_t *out) {
    const uint8_t *esp = datagram + OUTER;
    if (size < OUTER + 34 || datagram[9] != 50 || checksum(datagram) != 0 || get32(esp) != h->spi) return -1;
    size_t length = size - OUTER - ESP_HEAD - ICV;
    uint32_t number = get32(esp + 4);
    int n;
    if (!is_fresh(h, number)) return -1;
    begin(h, esp);
    if (EVP_CipherUpdate(h->cipher, out, &n, esp + ESP_HEAD, (int)length) != 1) fail("open");
    if (EVP_CIPHER_CTX_ctrl(h->cipher, EVP_CTRL_AEAD_SET_TAG, ICV, (void *)(esp + ESP_HEAD + length)) != 1) fail("tag");
    if (EVP_CipherFinal_ex(h->cipher, out + length, &n) != 1) return -1;
    take(h, number);
    size_t pad = out[length - 2];
    return pad + 2 > length || out[length - 1] != 4 ? -1 : (long)(length - 2 - pad);
}

static struct sockaddr_in port_here(int port) {
    struct sockaddr_in made = {.sin_family = AF_INET, .sin_port = htons((uint16_t)port), .sin_addr = {htonl(INADDR_LOOPBACK)}};
    return made;
}

// A socket at this port that doesn't block.
static int bound(int kind, int port) {
    struct sockaddr_in at = port_here(port);
    int on = 1, made = socket(AF_INET, kind | SOCK_NONBLOCK | SOCK_CLOEXEC, 0);
    if (made < 0) fail("socket");
    if (kind == SOCK_STREAM) setsockopt(made, SOL_SOCKET, SO_REUSEADDR, &on, sizeof on);
    if (bind(made, (struct sockaddr *)&at, sizeof at) != 0) fail("bind");
    if (kind == SOCK_STREAM && listen(made, 128) != 0) fail("listen");
    return made;
}
