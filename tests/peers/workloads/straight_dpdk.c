/* `loops` with its inner loop unrolled, on DPDK's interpreter of eBPF or its translator: its verifier refuses loops. usage:
   straight_dpdk RUNS UNROLLED [jit]; puts out the last answer's four bytes. */
#include <rte_bpf.h>
#include <stdint.h>
#include <stdio.h>
#include <stdlib.h>

static unsigned put(struct ebpf_insn *code, unsigned at, uint8_t what, uint8_t target, uint8_t source, int32_t number)
{
	code[at] = (struct ebpf_insn){ .code = what, .dst_reg = target, .src_reg = source, .imm = number };
	return at + 1;
}

int main(int count, char **words)
{
	if (count < 3)
		return 3;
	unsigned rounds = atoi(words[1]), unrolled = atoi(words[2]), at = 0;
	struct ebpf_insn *code = calloc(4 * unrolled + 2, sizeof *code);
	if (!code)
		return 4;
	at = put(code, at, BPF_LDX | BPF_W | BPF_MEM, 0, 1, 0);
	for (unsigned left = unrolled; left; left--) {
		at = put(code, at, BPF_ALU | BPF_ADD | BPF_K, 0, 0, left);
		at = put(code, at, BPF_ALU | EBPF_MOV | BPF_X, 2, 0, 0);
		at = put(code, at, BPF_ALU | BPF_LSH | BPF_K, 2, 0, 3);
		at = put(code, at, BPF_ALU | BPF_XOR | BPF_X, 0, 2, 0);
	}
	at = put(code, at, BPF_JMP | EBPF_EXIT, 0, 0, 0);
	struct rte_bpf_prm loaded = { .ins = code, .nb_ins = at, .prog_arg = { .type = RTE_BPF_ARG_PTR, .size = 4 } };
	struct rte_bpf *program = rte_bpf_load(&loaded);
	struct rte_bpf_jit made = { 0 };
	if (!program || (count > 3 && (rte_bpf_get_jit(program, &made) || !made.func)))
		return 1;
	uint32_t answer = 0;
	for (; rounds; rounds--) {
		uint32_t packet = answer;
		answer = count > 3 ? made.func(&packet) : rte_bpf_exec(program, &packet);
	}
	for (int shift = 24; shift >= 0; shift -= 8)
		putchar(answer >> shift & 255);
	return 0;
}
