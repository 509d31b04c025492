package mouktelf

import (
	"encoding/hex"
	"reflect"
	"testing"
)

// By hand (MS-TDS 2.2.7.4, 2.2.7.17, 2.2.7.13): an INTN, a VARCHAR, an NVARCHAR(max) in two parts.
func TestRows(t *testing.T) {
	decode := func(text string) []byte {
		data, err := hex.DecodeString(text)
		if err != nil {
			t.Fatal(err)
		}
		return data
	}
	columns, err := NewColumns(decode("81030000000000090026040"+"16E00"+"000000000900A70A000904000000017400"+"000000000900E7FFFF0904000000016D00"), false)
	if err != nil || len(columns.Columns) != 3 {
		t.Fatal(columns, err)
	}
	if it := columns.Columns[2]; it.Name != "m" || it.Kind != 0xE7 || !it.InParts || it.Collation != [5]byte{9, 4} {
		t.Error(it)
	}
	places, row := make([]RowPlace, 3), decode("D1"+"0407000000"+"02006180"+"0400000000000000"+"020000007800"+"020000007900"+"00000000"+"D1")
	taken, err := columns.Places(row, places)
	if err != nil || taken != len(row)-1 || !reflect.DeepEqual(places, []RowPlace{{2, 4, false}, {8, 2, false}, {18, 12, false}}) {
		t.Error(taken, places, err)
	}
	if taken, err = columns.Places(decode("D2060409000000"), places); err != nil || taken != 7 || places[0].Null || !places[1].Null || !places[2].Null {
		t.Error(taken, places, err)
	}
	if _, err = columns.Places(row[:20], places); err != Fault(24) {
		t.Error(err)
	}
	// Both rows behind one another, and a DONE; where there is room for one alone; where the second is cut.
	both, many := append(decode(hex.EncodeToString(row[:len(row)-1])), decode("D2060409000000FD")...), make([]RowPlace, 7)
	if rows, taken, err := columns.PlacesOfRows(both, many); err != nil || rows != 2 || taken != 41 || !reflect.DeepEqual(many, []RowPlace{
		{2, 4, false}, {8, 2, false}, {18, 12, false}, {37, 4, false}, {41, 0, true}, {41, 0, true}, {}}) {
		t.Error(rows, taken, many, err)
	}
	for _, it := range []struct{ length, room, rows, taken int }{{len(both), 5, 1, 34}, {40, 7, 1, 34}, {0, 0, 0, 0}, {41, 6, 2, 41}} {
		if rows, taken, err := columns.PlacesOfRows(both[:it.length], many[:it.room]); err != nil || rows != it.rows || taken != it.taken {
			t.Error(it, rows, taken, err)
		}
	}
	// Its bytes up to anywhere: the values that are whole, from any column on, and one in parts as it comes.
	if next, taken, err := columns.Come(0, nil, row[1:20], places); err != nil || next != 2 || taken != 9 || places[1] != (RowPlace{7, 2, false}) {
		t.Error(next, taken, places, err)
	}
	if next, taken, err := columns.Come(1, nil, row[6:], places); err != nil || next != 3 || taken != 28 || places[2] != (RowPlace{12, 12, false}) {
		t.Error(next, taken, places, err)
	}
	if next, taken, err := columns.Come(0, []byte{6}, []byte{4, 9, 0, 0, 0}, places); err != nil || next != 3 || taken != 5 || !places[2].Null {
		t.Error(next, taken, places, err)
	}
	if _, _, err := columns.Come(4, nil, row, places); err != Fault(72) {
		t.Error(err)
	}
	if allocated := testing.AllocsPerRun(100, func() {
		_, err = columns.Places(row, places)
		_, _, err = columns.PlacesOfRows(both, many)
		_, _, err = columns.Come(0, nil, row[1:], places)
	}); allocated != 0 || err != nil {
		t.Error(allocated, err)
	}
	var parts, null Parts
	own, at := []byte(nil), 10
	for at < len(row) && !parts.IsOver {
		end := at + 3
		if end > len(row) {
			end = len(row)
		}
		piece, taken := parts.Next(row[at:end])
		own, at = append(own, piece...), at+taken
	}
	if !parts.IsOver || parts.IsNull || at != len(row)-1 || string(own) != "x\x00y\x00" {
		t.Error(own, at, parts)
	}
	if piece, taken := null.Next(decode("FFFFFFFFFFFFFFFFD1")); len(piece) != 0 || taken != 8 || !null.IsOver || !null.IsNull {
		t.Error(piece, taken, null)
	}
	if same, err := NewColumns(decode("81FFFF"), false); same != nil || err != nil {
		t.Error(same, err)
	}
}
