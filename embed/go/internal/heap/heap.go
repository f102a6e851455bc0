// Package heap takes the place of the allocator that libgeyserpan has, counts its blocks, and refuses growths. It is
// for the tests of package geyserpan alone.
package heap

// long heap_blocks(void);
// long heap_asked(void);
// void heap_refuse(long after);
import "C"

// Blocks tells how many blocks of memory the library holds.
func Blocks() int { return int(C.heap_blocks()) }

// Refuse refuses the growth that comes behind so many, that one alone; none where after is negative.
func Refuse(after int) { C.heap_refuse(C.long(after)) }

// Asked tells how many growths were asked for since Refuse was called.
func Asked() int { return int(C.heap_asked()) }
