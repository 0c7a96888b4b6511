/* The work of `aotcp check` for one shared key, as an engineer would write it at first: C over OpenSSL, lines in, a key set up for each
 * segment. It shares nothing with the crates. The least that does the job: one key for both directions, no lifetimes, no tables, a hash
 * of connections that doesn't grow.
 *
 *     check_openssl sha1|cmac KEYID HEXKEY < LINES
 *
 * LINES are stored segments, `TIME DATAGRAM`. It writes the lines that `aotcp check` writes for well-formed segments; of others `bad`.
 * Made by oracle/make_peers: cc -O2 -lcrypto (OpenSSL 3; the HMAC and CMAC calls that it deprecates).
 */
#include <openssl/cmac.h>
#include <openssl/evp.h>
#include <openssl/hmac.h>
#include <stdint.h>
#include <stdio.h>
#include <stdlib.h>
#include <string.h>

static int cm, id;
static uint8_t master[256];
static int master_len;
typedef struct {
    uint8_t key[36];
    uint8_t used, fixed;
    uint32_t isn[2];
    uint64_t expect[2];
    uint8_t tk[2][20], have[2];
} conn;
static conn *table;
static size_t mask;
static HMAC_CTX *hc;
static CMAC_CTX *cc;
static uint8_t cprf[16];
static int hexval(int c) {
    return c >= '0' && c <= '9' ? c - '0' : (c | 32) >= 'a' && (c | 32) <= 'f' ? (c | 32) - 'a' + 10 : -1;
}
static uint32_t r4(const uint8_t *p) { return (uint32_t)p[0] << 24 | p[1] << 16 | p[2] << 8 | p[3]; }
static void traffic(uint8_t *out, const uint8_t *ctx, int n) {
    uint8_t in[64];
    in[0] = 1;
    memcpy(in + 1, "TCP-AO", 6);
    memcpy(in + 7, ctx, n);
    in[7 + n] = 0;
    in[8 + n] = cm ? 0x80 : 0xa0;
    if (cm) {
        size_t l;
        CMAC_Init(cc, cprf, 16, EVP_aes_128_cbc(), 0);
        CMAC_Update(cc, in, 9 + n);
        CMAC_Final(cc, out, &l);
    } else {
        unsigned l;
        HMAC_Init_ex(hc, master, master_len, EVP_sha1(), 0);
        HMAC_Update(hc, in, 9 + n);
        HMAC_Final(hc, out, &l);
    }
}
static conn *find(const uint8_t *k, int make) {
    uint64_t h = 1469598103934665603ull;
    for (int i = 0; i < 36; i++) h = (h ^ k[i]) * 1099511628211ull;
    size_t i = h & mask;
    while (table[i].used && memcmp(table[i].key, k, 36)) i = (i + 1) & mask;
    if (!table[i].used) {
        if (!make) return 0;
        table[i].used = 1;
        memcpy(table[i].key, k, 36);
    }
    return &table[i];
}
int main(int argc, char **argv) {
    cm = !strcmp(argv[1], "cmac");
    id = atoi(argv[2]);
    for (const char *p = argv[3]; *p; p += 2) master[master_len++] = hexval(p[0]) << 4 | hexval(p[1]);
    hc = HMAC_CTX_new();
    cc = CMAC_CTX_new();
    mask = (1 << 18) - 1;
    table = calloc(mask + 1, sizeof *table);
    if (cm) {
        if (master_len == 16)
            memcpy(cprf, master, 16);
        else {
            uint8_t z[16] = {0};
            size_t l;
            CMAC_Init(cc, z, 16, EVP_aes_128_cbc(), 0);
            CMAC_Update(cc, master, master_len);
            CMAC_Final(cc, cprf, &l);
        }
    }
    static char line[300000];
    static uint8_t d[66000];
    unsigned n = 0;
    int status = 0;
    setvbuf(stdout, malloc(1 << 16), _IOFBF, 1 << 16);
    while (fgets(line, sizeof line, stdin)) {
        n++;
        char *p = strchr(line, ' ');
        if (!p) continue;
        p++;
        int len = 0;
        while (hexval(p[0]) >= 0) {
            d[len++] = hexval(p[0]) << 4 | hexval(p[1]);
            p += 2;
        }
        int v4 = d[0] >> 4 == 4, ih = v4 ? (d[0] & 15) * 4 : 40, al = v4 ? 4 : 16,
            total = v4 ? d[2] << 8 | d[3] : 40 + (d[4] << 8 | d[5]);
        const uint8_t *src = d + (v4 ? 12 : 8), *dst = src + al, *t = d + ih;
        int tl = total - ih, off = (t[12] >> 4) * 4;
        if (len < total || tl < 20 || off < 20 || off > tl) {
            printf("%u bad\n", n);
            status = 1;
            continue;
        }
        uint32_t s = 0;
        uint8_t ph[40];
        int pn = 2 * al;
        memcpy(ph, src, pn);
        if (v4) {
            ph[pn++] = 0;
            ph[pn++] = 6;
            ph[pn++] = tl >> 8;
            ph[pn++] = tl;
        } else {
            ph[pn++] = 0;
            ph[pn++] = 0;
            ph[pn++] = tl >> 8;
            ph[pn++] = tl;
            ph[pn++] = 0;
            ph[pn++] = 0;
            ph[pn++] = 0;
            ph[pn++] = 6;
        }
        for (int i = 0; i < pn; i += 2) s += ph[i] << 8 | ph[i + 1];
        for (int i = 0; i + 1 < tl; i += 2) s += t[i] << 8 | t[i + 1];
        if (tl & 1) s += t[tl - 1] << 8;
        while (s >> 16) s = (s & 65535) + (s >> 16);
        const char *sum = s == 65535 ? "good" : "wrong";
        int ao = -1;
        for (int i = 20; i < off;) {
            if (t[i] == 0) break;
            if (t[i] == 1) {
                i++;
                continue;
            }
            if (i + 1 >= off || t[i + 1] < 2) break;
            if (t[i] == 29) ao = i;
            i += t[i + 1];
        }
        if (ao < 0) {
            printf("%u refused no-ao checksum %s\n", n, sum);
            status = 1;
            continue;
        }
        if (t[ao + 2] != id) {
            printf("%u refused no-tuple checksum %s\n", n, sum);
            status = 1;
            continue;
        }
        if (t[ao + 1] != 16) {
            printf("%u refused mac-length checksum %s\n", n, sum);
            status = 1;
            continue;
        }
        uint8_t a[18] = {0}, b[18] = {0};
        memcpy(a, src, al);
        memcpy(a + 16, t, 2);
        memcpy(b, dst, al);
        memcpy(b + 16, t + 2, 2);
        int way = memcmp(a, b, 18) > 0;
        uint8_t k[36];
        memcpy(k, way ? b : a, 18);
        memcpy(k + 18, way ? a : b, 18);
        int syn = t[13] & 2, ack = t[13] & 16;
        conn *c = find(k, 0);
        uint64_t num;
        uint8_t ctx[44];
        int cn = 2 * al;
        memcpy(ctx, src, cn);
        memcpy(ctx + cn, t, 4);
        cn += 4;
        uint8_t tkb[20], *tk = tkb;
        uint32_t seq = r4(t + 4);
        if (syn) {
            num = seq;
            uint32_t di = ack ? r4(t + 8) - 1 : 0;
            memcpy(ctx + cn, t + 4, 4);
            ctx[cn + 4] = di >> 24;
            ctx[cn + 5] = di >> 16;
            ctx[cn + 6] = di >> 8;
            ctx[cn + 7] = di;
            traffic(tk, ctx, cn + 8);
        } else {
            if (!c || !c->fixed) {
                printf("%u refused no-context checksum %s\n", n, sum);
                status = 1;
                continue;
            }
            num = c->expect[way] + (int64_t)(int32_t)(seq - (uint32_t)c->expect[way]);
            tk = c->tk[way];
            if (!c->have[way]) {
                uint32_t si = c->isn[way], di = c->isn[!way];
                uint32_t x[2] = {si, di};
                for (int j = 0; j < 2; j++)
                    for (int i = 0; i < 4; i++) ctx[cn + 4 * j + i] = x[j] >> (24 - 8 * i);
                traffic(tk, ctx, cn + 8);
                c->have[way] = 1;
            }
        }
        uint32_t sne = num >> 32;
        uint8_t e[4] = {sne >> 24, sne >> 16, sne >> 8, sne}, z[60], out[20];
        memcpy(z, t, off);
        z[16] = z[17] = 0;
        memset(z + ao + 4, 0, 12);
        if (cm) {
            size_t l;
            CMAC_Init(cc, tk, 16, EVP_aes_128_cbc(), 0);
            CMAC_Update(cc, e, 4);
            CMAC_Update(cc, ph, pn);
            CMAC_Update(cc, z, off);
            CMAC_Update(cc, t + off, tl - off);
            CMAC_Final(cc, out, &l);
        } else {
            unsigned l;
            HMAC_Init_ex(hc, tk, 20, EVP_sha1(), 0);
            HMAC_Update(hc, e, 4);
            HMAC_Update(hc, ph, pn);
            HMAC_Update(hc, z, off);
            HMAC_Update(hc, t + off, tl - off);
            HMAC_Final(hc, out, &l);
        }
        if (memcmp(out, t + ao + 4, 12)) {
            printf("%u refused bad-mac checksum %s\n", n, sum);
            status = 1;
            continue;
        }
        printf("%u pass row 1 number %llu checksum %s\n", n, (unsigned long long)num, sum);
        if (syn && ack) {
            c = find(k, 1);
            uint32_t other = r4(t + 8) - 1;
            if (!c->fixed || c->isn[way] != seq || c->isn[!way] != other) {
                c->fixed = 1;
                c->isn[way] = seq;
                c->isn[!way] = other;
                c->expect[way] = (uint64_t)seq + 1;
                c->expect[!way] = (uint64_t)other + 1;
                c->have[0] = c->have[1] = 0;
            }
        }
        if (!syn && c) {
            uint64_t end = num + (tl - off) + (t[13] & 1);
            if (end > c->expect[way]) c->expect[way] = end;
        }
    }
    return status;
}
