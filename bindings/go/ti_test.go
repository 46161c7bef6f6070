package ti

import (
	"bytes"
	"errors"
	"os"
	"path/filepath"
	"strconv"
	"testing"
)

const name = "tmux-256color"

var changes = []Change{{"Smulx", "<%p1%d>"}, {"colors", 1 << 24}, {"RGB", true}, {"smcup", nil}, {"am", false}}

func find(t *testing.T) *Entry {
	entry, err := Find(name)
	if err != nil {
		t.Fatal(err)
	}
	return entry
}

func TestStringsAreSent(t *testing.T) {
	path := filepath.Join(t.TempDir(), "sent")
	file, err := os.Create(path)
	if err != nil {
		t.Fatal(err)
	}
	terminal, err := Open(name, file)
	if err != nil {
		t.Fatal(err)
	}
	put := func(wanted bool, name string, params ...any) {
		if sent, err := terminal.Put(name, params...); sent != wanted || err != nil {
			t.Error(name, sent, err)
		}
	}
	put(true, "cup", 4, 9)
	put(true, "Smulx", 3)
	put(true, "Ms", "c", []byte("aGk="))
	put(false, "nosuch")
	if _, err := terminal.Put("Ms", 1, 2); err != BadParameter {
		t.Error(err)
	}
	if _, err := terminal.Put("cup", 1.5); err == nil {
		t.Error("a float is no parameter")
	}
	if err := terminal.PutText("text"); err != nil {
		t.Error(err)
	}
	if number, is := terminal.Values().Number("colors"); number != 256 || !is {
		t.Error(number)
	}
	if _, width := terminal.Size(); width == 0 {
		t.Error("the width is not known")
	}
	for _, pressed := range []struct {
		bytes, name string
		size        int
		unfinished  bool
	}{{"\x1bOAx", "kcuu1", 3, false}, {"\x1b[", "", 0, true}, {"x", "", 0, false}} {
		key, size, is := terminal.Key([]byte(pressed.bytes))
		if key != pressed.name || size != pressed.size || is != pressed.unfinished {
			t.Errorf("%q: %q, %d, %v", pressed.bytes, key, size, is)
		}
	}
	for _, params := range [][]any{{1 << 31, 0}, {-1<<31 - 1, 0}} {
		if sent, err := terminal.Put("cup", params...); sent || !errors.Is(err, strconv.ErrRange) {
			t.Error(params, sent, err)
		}
	}
	if filepath.Base(terminal.Path()) != name {
		t.Error(terminal.Path())
	}
	if err := terminal.Change(changes...); err != nil {
		t.Error(err)
	}
	put(true, "Smulx", 3)
	put(false, "smcup")
	values := terminal.Values()
	if text, is := values.String("Smulx"); !is || string(text) != "<%p1%d>" {
		t.Errorf("%q", text)
	}
	copied := *terminal
	terminal.Close()
	for _, closed := range []*Terminal{terminal, &copied, new(Terminal)} {
		isClosed(t, closed)
	}
	if _, is := values.String("Smulx"); is || values.Flag("am") || values.Names() != "" {
		t.Error("a terminal that is closed has values")
	}
	file.Close()
	sent, err := os.ReadFile(path)
	if err != nil || string(sent) != "\x1b[5;10H\x1b[4:3m\x1b]52;c;aGk=\atext<3>" {
		t.Errorf("%q, %v", sent, err)
	}
}

func TestEntriesAreChanged(t *testing.T) {
	found := find(t)
	defer found.Close()
	changed, err := found.Changed(changes...)
	if err != nil {
		t.Fatal(err)
	}
	defer changed.Close()
	again, err := OfBytes(changed.Bytes())
	if err != nil {
		t.Fatal(err)
	}
	defer again.Close()
	values := again.Values()
	number, is := values.Number("colors")
	text, has := values.String("Smulx")
	_, left := values.String("smcup")
	if number != 1<<24 || !is || string(text) != "<%p1%d>" || !has || left || !values.Flag("RGB") || values.Flag("am") {
		t.Error(number, text, left)
	}
	if values.Names() != found.Values().Names() || found.Path() == "" || again.Path() != "" {
		t.Error(values.Names())
	}
	for _, refused := range []struct {
		change Change
		wanted error
	}{{Change{"a b", true}, BadCapability}, {Change{"cup", 1}, BadValue}, {Change{"XX", -1}, BadValue},
		{Change{"XX", bytes.Repeat([]byte("x"), 40000)}, TooLarge}} {
		if _, err := found.Changed(refused.change); err != refused.wanted {
			t.Error(refused.change.Name, err)
		}
	}
}

func TestErrorsHaveASentence(t *testing.T) {
	if _, err := Find("no-such"); err != NoTerminal || err.Error() != "No terminal has the name" {
		t.Error(err)
	}
	if _, err := OfBytes([]byte("no")); err == nil {
		t.Error("two bytes are no entry")
	}
}

// isClosed checks that each call of a terminal that is closed is refused or gives nothing.
func isClosed(t *testing.T, terminal *Terminal) {
	_, put := terminal.Put("sgr0")
	key, size, is := terminal.Key([]byte("\x1bOA"))
	height, width := terminal.Size()
	for _, err := range []error{put, terminal.PutText("x"), terminal.Change(changes...)} {
		if err != os.ErrClosed {
			t.Error(err)
		}
	}
	if key != "" || size != 0 || is || height != 0 || width != 0 || terminal.Path() != "" {
		t.Error("a terminal that is closed has keys, a size or a path")
	}
	if _, is := terminal.Values().Number("colors"); is {
		t.Error("a terminal that is closed has values")
	}
	terminal.Close()
}

func TestClosedEntries(t *testing.T) {
	entry := find(t)
	copied, values := *entry, entry.Values()
	entry.Close()
	for _, closed := range []*Entry{entry, &copied, new(Entry), nil} {
		if _, err := closed.Changed(changes...); err != os.ErrClosed {
			t.Error(err)
		}
		if _, is := closed.Values().String("bel"); is || closed.Bytes() != nil || closed.Path() != "" {
			t.Error("an entry that is closed has values")
		}
		closed.Close()
	}
	if _, is := values.Number("colors"); is || new(Values).Flag("am") || new(Values).Names() != "" {
		t.Error("an entry that is closed has values")
	}
}

func TestNamesWithANul(t *testing.T) {
	if _, err := Find(name + "\x00"); err != BadName {
		t.Error(err)
	}
	if _, err := Open(name+"\x00", os.Stdout); err != BadName {
		t.Error(err)
	}
	entry := find(t)
	defer entry.Close()
	if _, is := entry.Values().Number("colors\x00"); is || entry.Values().Flag("am\x00") {
		t.Error("a name with a NUL is one without it")
	}
}
