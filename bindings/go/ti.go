// Package ti has terminfo entries and terminals by libti: see ti(3).
//
//	terminal, err := ti.Open("", os.Stdout)
//	if err != nil {
//		return err
//	}
//	defer terminal.Close()
//	terminal.Put("setaf", 2)
//	terminal.PutText("green")
//	terminal.Put("sgr0")
//
// The name of a terminal is that of the variable TERM if it is empty. Names of capabilities are those
// that ti_string_named takes. An entry and a terminal are used by one goroutine at a time. Once they
// are closed they have no values, and what is asked of them is refused by os.ErrClosed.
package ti

/*
#cgo LDFLAGS: -lti
#include <stdlib.h>
#include <ti.h>
*/
import "C"

import (
	"fmt"
	"math"
	"os"
	"strconv"
	"strings"
	"unsafe"
)

// Error is a status of enum ti_status.
type Error uint32

// The statuses that programs tell apart; ti.h has the others.
const (
	NoTerminal    Error = C.TI_NO_TERMINAL
	BadName       Error = C.TI_BAD_NAME
	BadParameter  Error = C.TI_BAD_PARAMETER
	BadCapability Error = C.TI_BAD_CAPABILITY
	BadValue      Error = C.TI_BAD_VALUE
	TooLarge      Error = C.TI_TOO_LARGE
)

func (e Error) Error() string {
	return C.GoString(C.ti_strerror(uint32(e)))
}

func check(status uint32) error {
	if status == C.TI_OK {
		return nil
	}
	return Error(status)
}

// texts holds copies for C until they are freed.
type texts struct{ held []unsafe.Pointer }

func (t *texts) keep(bytes unsafe.Pointer) unsafe.Pointer {
	t.held = append(t.held, bytes)
	return bytes
}

func (t *texts) cString(text string) *C.char {
	return (*C.char)(t.keep(unsafe.Pointer(C.CString(text))))
}

func (t *texts) text(text string) C.struct_ti_text {
	return C.struct_ti_text{bytes: (*C.uint8_t)(unsafe.Pointer(t.cString(text))), size: C.size_t(len(text))}
}

func (t *texts) free() {
	for _, bytes := range t.held {
		C.free(bytes)
	}
}

// name is a name for C, which ends with a NUL there and so has none.
func (t *texts) name(name string) (*C.char, error) {
	if strings.IndexByte(name, 0) >= 0 {
		return nil, BadName
	}
	return t.cString(name), nil
}

// terminal is the name of a terminal for C: NULL for TERM.
func (t *texts) terminal(name string) (*C.char, error) {
	if name == "" {
		return nil, nil
	}
	return t.name(name)
}

func goBytes(text C.struct_ti_text) []byte {
	return C.GoBytes(unsafe.Pointer(text.bytes), C.int(text.size))
}

// Change gives a capability a value: true, an int, a string or bytes. Nil or false takes away what
// it has.
type Change struct {
	Name  string
	Value any
}

func (t *texts) change(change Change) (made C.struct_ti_change, err error) {
	made.name = t.text(change.Name)
	made.value.is_present = true
	switch value := change.Value.(type) {
	case nil:
		made.value.is_present = false
	case bool:
		made.value.is_present = C.bool(value)
	case int:
		if value < 0 || value > 1<<31-1 {
			return made, BadValue
		}
		made.value.kind, made.value.number = C.TI_NUMBER, C.uint32_t(value)
	case string:
		made.value.kind, made.value.text = C.TI_STRING, t.text(value)
	case []byte:
		made.value.kind, made.value.text = C.TI_STRING, t.text(string(value))
	default:
		return made, fmt.Errorf("a value is a bool, an int, a string or bytes, and not %T", value)
	}
	return made, nil
}

// changes puts changes where C may read them.
func (t *texts) changes(changes []Change) (*C.struct_ti_change, error) {
	size := C.size_t(unsafe.Sizeof(C.struct_ti_change{}))
	at := (*C.struct_ti_change)(t.keep(C.calloc(C.size_t(len(changes)+1), size)))
	given := unsafe.Slice(at, len(changes))
	for i, change := range changes {
		made, err := t.change(change)
		if err != nil {
			return nil, err
		}
		given[i] = made
	}
	return at, nil
}

// holder is what has an entry until it is closed.
type holder interface{ held() *C.struct_ti_entry }

// Values are those of an entry or of a terminal, none once that is closed.
type Values struct{ of holder }

// named is the entry, and a name for C. There are none of what is closed, and of a name with a NUL.
func (v Values) named(t *texts, name string) (*C.struct_ti_entry, *C.char, bool) {
	text, err := t.name(name)
	if err != nil || v.of == nil || v.of.held() == nil {
		return nil, nil, false
	}
	return v.of.held(), text, true
}

// Flag says whether a boolean is set.
func (v Values) Flag(name string) bool {
	var t texts
	defer t.free()
	entry, text, is := v.named(&t, name)
	return is && C.ti_flag_named(entry, text) == 1
}

// Number is a number; the second result is false if the entry does not have it.
func (v Values) Number(name string) (int, bool) {
	var t texts
	defer t.free()
	entry, text, is := v.named(&t, name)
	if !is {
		return 0, false
	}
	number := C.ti_number_named(entry, text)
	if number < 0 {
		return 0, false
	}
	return int(number), true
}

// String is a string; the second result is false if the entry does not have it.
func (v Values) String(name string) ([]byte, bool) {
	var t texts
	defer t.free()
	var text C.struct_ti_text
	entry, given, is := v.named(&t, name)
	if !is || C.ti_string_named(entry, given, &text) != 1 {
		return nil, false
	}
	return goBytes(text), true
}

// Names is the names field.
func (v Values) Names() string {
	var text C.struct_ti_text
	if v.of == nil || v.of.held() == nil {
		return ""
	}
	C.ti_names(v.of.held(), &text)
	return string(goBytes(text))
}

// Entry is a compiled entry, which has to be closed. Its copies are of the same entry.
type Entry struct{ handle *entryHandle }

// entryHandle is an entry, which is nil once it is closed.
type entryHandle struct {
	entry *C.struct_ti_entry
	path  string
}

func newEntry(entry *C.struct_ti_entry, path string) *Entry {
	return &Entry{&entryHandle{entry, path}}
}

func (e *Entry) held() *C.struct_ti_entry {
	if e == nil || e.handle == nil {
		return nil
	}
	return e.handle.entry
}

// Find finds the entry of a terminal.
func Find(name string) (*Entry, error) {
	var t texts
	defer t.free()
	var entry *C.struct_ti_entry
	var path *C.char
	wanted, err := t.terminal(name)
	if err != nil {
		return nil, err
	}
	status := C.ti_open_path(wanted, &entry, &path)
	defer C.free(unsafe.Pointer(path))
	if err := check(status); err != nil {
		return nil, err
	}
	return newEntry(entry, C.GoString(path)), nil
}

// OfBytes reads an entry from a copy of its bytes.
func OfBytes(bytes []byte) (*Entry, error) {
	var t texts
	defer t.free()
	var entry *C.struct_ti_entry
	text := t.text(string(bytes))
	if err := check(C.ti_entry_new(text.bytes, text.size, &entry)); err != nil {
		return nil, err
	}
	return newEntry(entry, ""), nil
}

// Changed is the entry with changes, of which the last of a name decides.
func (e *Entry) Changed(changes ...Change) (*Entry, error) {
	var t texts
	defer t.free()
	given, err := t.changes(changes)
	if err != nil {
		return nil, err
	}
	if e.held() == nil {
		return nil, os.ErrClosed
	}
	var entry *C.struct_ti_entry
	made := C.ti_entry_change(e.held(), given, C.size_t(len(changes)), &entry)
	if err := check(made.status); err != nil {
		return nil, err
	}
	return newEntry(entry, ""), nil
}

// Bytes are those of the compiled entry.
func (e *Entry) Bytes() []byte {
	var text C.struct_ti_text
	if e.held() == nil {
		return nil
	}
	C.ti_entry_bytes(e.held(), &text)
	return goBytes(text)
}

// Values are its values.
func (e *Entry) Values() Values { return Values{e} }

// Path is that of the file in which it was found.
func (e *Entry) Path() string {
	if e.held() == nil {
		return ""
	}
	return e.handle.path
}

// Close frees the entry. To close it again does nothing.
func (e *Entry) Close() {
	if e.held() != nil {
		C.ti_entry_free(e.handle.entry)
		e.handle.entry = nil
	}
}

// Terminal is a terminal that is opened once, which has to be closed. Its copies are of the same
// terminal.
type Terminal struct{ handle *terminalHandle }

// terminalHandle is a terminal, which is nil once it is closed, and its file, which lives as long.
type terminalHandle struct {
	terminal *C.struct_ti_terminal
	file     *os.File
}

func (t *Terminal) opened() *C.struct_ti_terminal {
	if t == nil || t.handle == nil {
		return nil
	}
	return t.handle.terminal
}

func (t *Terminal) held() *C.struct_ti_entry {
	if t.opened() == nil {
		return nil
	}
	return C.ti_terminal_entry(t.opened())
}

// Open opens the terminal of a name, to which a file leads. The file stays open.
func Open(name string, file *os.File) (*Terminal, error) {
	var t texts
	defer t.free()
	var terminal *C.struct_ti_terminal
	wanted, err := t.terminal(name)
	if err != nil {
		return nil, err
	}
	if err := check(C.ti_terminal_open(wanted, C.int(file.Fd()), &terminal)); err != nil {
		return nil, err
	}
	return &Terminal{&terminalHandle{terminal, file}}, nil
}

// parameter makes a parameter for C. An int has to be one of 32 bits; another is strconv.ErrRange.
func (t *texts) parameter(param any) (made C.struct_ti_parameter, err error) {
	switch value := param.(type) {
	case int:
		if value < math.MinInt32 || value > math.MaxInt32 {
			return made, fmt.Errorf("a parameter is %d: %w", value, strconv.ErrRange)
		}
		made.number = C.int32_t(value)
	case string:
		made.kind, made.text = 1, t.text(value)
	case []byte:
		made.kind, made.text = 1, t.text(string(value))
	default:
		return made, fmt.Errorf("a parameter is an int, a string or bytes, and not %T", param)
	}
	return made, nil
}

// parameters puts parameters where C may read them.
func (t *texts) parameters(params []any) (*C.struct_ti_parameter, error) {
	size := C.size_t(unsafe.Sizeof(C.struct_ti_parameter{}))
	at := (*C.struct_ti_parameter)(t.keep(C.calloc(C.size_t(len(params)+1), size)))
	given := unsafe.Slice(at, len(params))
	for i, param := range params {
		made, err := t.parameter(param)
		if err != nil {
			return nil, err
		}
		given[i] = made
	}
	return at, nil
}

// Put sends a string by its name, with parameters that are ints of 32 bits, strings or bytes. It is
// false if the terminal does not have the string.
func (t *Terminal) Put(name string, params ...any) (bool, error) {
	var held texts
	defer held.free()
	wanted, err := held.name(name)
	if err != nil {
		return false, err
	}
	given, err := held.parameters(params)
	if err != nil {
		return false, err
	}
	if t.opened() == nil {
		return false, os.ErrClosed
	}
	sent := C.ti_put_named_values(t.opened(), wanted, given, C.size_t(len(params)))
	if sent.status == C.TI_ABSENT {
		return false, nil
	}
	return sent.status == C.TI_OK, check(sent.status)
}

// PutText sends a text as it is.
func (t *Terminal) PutText(text string) error {
	var held texts
	defer held.free()
	given := held.text(text)
	if t.opened() == nil {
		return os.ErrClosed
	}
	return check(C.ti_put_text(t.opened(), given.bytes, given.size).status)
}

// Change changes its entry, for what is sent later.
func (t *Terminal) Change(changes ...Change) error {
	var held texts
	defer held.free()
	given, err := held.changes(changes)
	if err != nil {
		return err
	}
	if t.opened() == nil {
		return os.ErrClosed
	}
	return check(C.ti_terminal_change(t.opened(), given, C.size_t(len(changes))).status)
}

// Key is the name of the key that bytes from the terminal begin with, and how many bytes it takes,
// 0 if there is none; and whether the bytes may be the front of a longer key, so that a program waits
// some time for more.
func (t *Terminal) Key(bytes []byte) (name string, size int, isUnfinished bool) {
	var held texts
	defer held.free()
	var text C.struct_ti_text
	given := held.text(string(bytes))
	if t.opened() == nil {
		return "", 0, false
	}
	key := C.ti_terminal_key(t.opened(), given.bytes, given.size, &text)
	if key.size > 0 {
		name = string(goBytes(text))
	}
	return name, int(key.size), key.status == C.TI_UNFINISHED
}

// Size is that of the screen in characters, 0 if it is not known.
func (t *Terminal) Size() (height, width int) {
	if t.opened() == nil {
		return 0, 0
	}
	size := C.ti_terminal_size(t.opened())
	return int(size.height), int(size.width)
}

// Values are those of its entry, as it is changed.
func (t *Terminal) Values() Values { return Values{t} }

// Path is that of the file in which its entry was found.
func (t *Terminal) Path() string {
	if t.opened() == nil {
		return ""
	}
	return C.GoString(C.ti_terminal_path(t.opened()))
}

// Close frees the terminal and its entry. To close it again does nothing.
func (t *Terminal) Close() {
	if t.opened() != nil {
		C.ti_terminal_close(t.handle.terminal)
		t.handle.terminal = nil
	}
}
