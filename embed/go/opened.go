package geyserpan

// #include <stdlib.h>
// #include "geyserpan.h"
import "C"

import (
	"runtime"
	"strings"
	"sync"
	"unsafe"
)

// most is how many pairs of handles an image keeps for its next runs.
const most = 64

// pair is what a run has for itself: a handle that shares the image, and one of the run. A pair that nobody holds any
// more, since a session wasn't closed, is freed by the collector.
type pair struct {
	image   C.geyserpan_image
	engine  C.geyserpan_engine
	changes uint64 // the image's, when it was shared
}

func (p *pair) free() {
	if p.engine.at != nil {
		C.geyserpan_engine_free(p.engine)
	}
	if p.image.at != nil {
		C.geyserpan_image_free(p.image)
	}
	p.engine.at, p.image.at = nil, nil
}

// opened is an image that was verified once. Each Image on it is a user.
type opened struct {
	facts Facts
	name  [32]byte

	mutex   sync.Mutex // guards what stands below it, and whether its users are closed
	handle  C.geyserpan_image
	changes uint64 // how often the handle was given an object
	idle    []*pair
	users   int
}

// open verifies an image; the error is that of its status alone.
func open(data []byte, terms Terms) (*opened, C.uint32_t, C.geyserpan_why) {
	var why C.geyserpan_why
	made, granted := &opened{name: SHA256(data)}, terms.c()
	status := C.geyserpan_image_new(&made.handle)
	if status != C.GEYSERPAN_OK {
		return nil, status, why
	}
	runtime.SetFinalizer(made, (*opened).free)
	status = C.geyserpan_open(&made.handle, first(data), C.size_t(len(data)), &granted, &why)
	if status != C.GEYSERPAN_OK {
		made.free()
		return nil, status, why
	}
	var facts C.geyserpan_facts
	C.geyserpan_facts_of(&made.handle, &facts)
	made.facts = factsOf(facts)
	return made, status, why
}

func (o *opened) free() {
	if o.handle.at != nil {
		C.geyserpan_image_free(o.handle)
	}
	o.handle.at = nil
}

// take gives a run of an image handles of its own: those of an earlier run, or new ones.
func (o *opened) take(image *Image) (*pair, error) {
	o.mutex.Lock()
	defer o.mutex.Unlock()
	if image.closed {
		return nil, ErrClosed
	}
	if last := len(o.idle) - 1; last >= 0 {
		taken := o.idle[last]
		o.idle = o.idle[:last]
		return taken, nil
	}
	taken := &pair{changes: o.changes}
	status := C.geyserpan_image_new(&taken.image)
	if status == C.GEYSERPAN_OK {
		status = C.geyserpan_image_share(&o.handle, &taken.image)
	}
	if status == C.GEYSERPAN_OK {
		status = C.geyserpan_engine_new(&taken.engine)
	}
	if status != C.GEYSERPAN_OK {
		taken.free()
		return nil, refused(status, C.geyserpan_why{})
	}
	runtime.SetFinalizer(taken, (*pair).free)
	return taken, nil
}

// give takes them back, without the run.
func (o *opened) give(taken *pair) {
	C.geyserpan_engine_end(&taken.engine)
	o.mutex.Lock()
	defer o.mutex.Unlock()
	if o.users == 0 || len(o.idle) == most || taken.changes != o.changes {
		taken.free()
		return
	}
	o.idle = append(o.idle, taken)
}

// goBy has the runs that are begun from now on go by an object.
func (o *opened) goBy(image *Image, path string) error {
	if strings.IndexByte(path, 0) >= 0 {
		return refused(C.GEYSERPAN_FILE, C.geyserpan_why{})
	}
	name := C.CString(path)
	defer C.free(unsafe.Pointer(name))
	o.mutex.Lock()
	defer o.mutex.Unlock()
	if image.closed {
		return ErrClosed
	}
	if status := C.geyserpan_native(&o.handle, name); status != C.GEYSERPAN_OK {
		return refused(status, C.geyserpan_why{})
	}
	o.changes++
	o.drop()
	return nil
}

// drop frees the handles that are kept for the next runs.
func (o *opened) drop() {
	for _, kept := range o.idle {
		kept.free()
	}
	o.idle = nil
}

// enter makes one more user.
func (o *opened) enter(terms Terms) *Image {
	o.mutex.Lock()
	defer o.mutex.Unlock()
	o.users++
	return &Image{opened: o, terms: terms}
}

// leave closes a user. The last one takes the handles along, but for those of runs that are under way.
func (o *opened) leave(image *Image) {
	o.mutex.Lock()
	defer o.mutex.Unlock()
	if image.closed {
		return
	}
	image.closed = true
	if o.users--; o.users > 0 {
		return
	}
	o.drop()
	o.free()
}
