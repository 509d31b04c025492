package judge

import (
	"encoding/hex"
	"fmt"
	"os"
	"strconv"
	"strings"
	"testing"
)

var kinds = map[string]What{">": ToServer, "<": ToClient, "borrow": Borrowed, "close": Shut}

// The recorded connections of a release's examples/captures.txt, or of a clone's tests, whose first lines say its form. CAPTURES
// names the file; where the package lies elsewhere, alone, there is none.
func TestCaptures(t *testing.T) {
	text, err := os.ReadFile(os.Getenv("CAPTURES"))
	for _, name := range []string{"examples/captures.txt", "tests/crates/test_judge/data/captures.txt"} {
		if err != nil && os.Getenv("CAPTURES") == "" {
			text, err = os.ReadFile("../../../" + name)
		}
	}
	if os.IsNotExist(err) && os.Getenv("CAPTURES") == "" {
		t.Skip("no captures are here")
	} else if err != nil {
		t.Fatal(err)
	}
	limits, count, title := Limits{Idle: 5_000_000, Columns: 16}, 0, ""
	var pieces []Piece
	for _, line := range strings.Split(string(text), "\n") {
		words := strings.Fields(line)
		if len(words) == 0 {
			continue
		}
		switch kind, isPiece := kinds[words[0]]; {
		case words[0] == "=":
			count, title, pieces = count+1, line, nil
		case words[0] == "found":
			found, err := Judge(limits, pieces)
			told := "found"
			for _, it := range found {
				told += fmt.Sprintf(" %d@%d=%d", it.Number, it.Offset, it.Value)
			}
			if err != nil || told != strings.TrimSpace(line) {
				t.Errorf("%s: %s (%v), and the file has %s", title, told, err, line)
			}
		case isPiece:
			time, _ := strconv.ParseUint(words[1], 10, 64)
			piece := Piece{Time: time, What: kind}
			if len(words) > 2 {
				piece.Bytes, _ = hex.DecodeString(words[2])
			}
			pieces = append(pieces, piece)
		}
	}
	if count == 0 {
		t.Error("no captures")
	}
	t.Logf("%d captures", count)
}

func TestTooManyColumns(t *testing.T) {
	if _, err := Judge(Limits{Columns: 4097}, nil); err == nil {
		t.Error("4097 columns aren't refused")
	}
	if found, err := Judge(Limits{Columns: 4096}, nil); err != nil || len(found) != 0 {
		t.Error("nothing to judge:", found, err)
	}
}
