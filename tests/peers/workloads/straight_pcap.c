/* `loops` with its inner loop unrolled, on libpcap's interpreter of classic BPF, which has no loops: four steps a round, the answer of
   one run is the packet of the next. usage: straight_pcap RUNS UNROLLED; puts out the last answer's four bytes. */
#include <arpa/inet.h>
#include <pcap/bpf.h>
#include <pcap/pcap.h>
#include <stdio.h>
#include <stdlib.h>

static unsigned put(struct bpf_insn *code, unsigned at, unsigned short what, unsigned number)
{
	code[at] = (struct bpf_insn){ what, 0, 0, number };
	return at + 1;
}

int main(int count, char **words)
{
	if (count < 3)
		return 3;
	unsigned rounds = atoi(words[1]), unrolled = atoi(words[2]), at = 0, answer = 0;
	struct bpf_insn *code = malloc(sizeof *code * (4 * unrolled + 2));
	if (!code)
		return 4;
	at = put(code, at, BPF_LD | BPF_W | BPF_ABS, 0);
	for (unsigned left = unrolled; left; left--) {
		at = put(code, at, BPF_ALU | BPF_ADD | BPF_K, left);
		at = put(code, at, BPF_MISC | BPF_TAX, 0);
		at = put(code, at, BPF_ALU | BPF_LSH | BPF_K, 3);
		at = put(code, at, BPF_ALU | BPF_XOR | BPF_X, 0);
	}
	at = put(code, at, BPF_RET | BPF_A, 0);
	if (!bpf_validate(code, at))
		return 1;
	for (; rounds; rounds--) {
		unsigned packet = htonl(answer);
		answer = bpf_filter(code, (unsigned char *)&packet, 4, 4);
	}
	for (int shift = 24; shift >= 0; shift -= 8)
		putchar(answer >> shift & 255);
	return 0;
}
