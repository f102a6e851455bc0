package geyserpan

// The archive stands first, and then nothing is asked of the shared object that pkg-config names.

// #cgo pkg-config: geyserpan
// #cgo LDFLAGS: -Wl,--as-needed -l:libgeyserpan.a
// #include "geyserpan.h"
import "C"

import "unsafe"

var none [1]byte

// first points to the bytes. No pointer is nil, that to no bytes either.
func first(bytes []byte) *C.uint8_t {
	if len(bytes) == 0 {
		return (*C.uint8_t)(unsafe.Pointer(&none[0]))
	}
	return (*C.uint8_t)(unsafe.Pointer(&bytes[0]))
}

// Version is that of the library's sources.
func Version() string {
	room := make([]byte, 32)
	return string(room[:C.geyserpan_version(first(room), C.size_t(len(room)))])
}

// SHA256 is the name of an image: the SHA-256 of its bytes.
func SHA256(data []byte) (name [32]byte) {
	C.geyserpan_sha256(first(data), C.size_t(len(data)), first(name[:]), C.size_t(len(name)))
	return name
}

// Check gives the verdict on the bytes of an image, whatever it asks for.
func Check(data []byte) (Facts, error) {
	var facts C.geyserpan_facts
	var why C.geyserpan_why
	if status := C.geyserpan_check(first(data), C.size_t(len(data)), &facts, &why); status != C.GEYSERPAN_OK {
		return Facts{}, refused(status, why)
	}
	return factsOf(facts), nil
}

// Assemble gives the image that a source of the sandbox's language means.
func Assemble(source []byte) ([]byte, error) {
	room := make([]byte, 4096)
	for {
		var needed C.uint64_t
		var why C.geyserpan_why
		switch status := C.geyserpan_assemble(first(source), C.size_t(len(source)), first(room), C.size_t(len(room)),
			&needed, &why); status {
		case C.GEYSERPAN_OK:
			return room[:needed], nil
		case C.GEYSERPAN_ROOM:
			room = make([]byte, needed)
		default:
			return nil, refused(status, why)
		}
	}
}
