package mouktelf

/*
#include "mouktelf.h"
*/
import "C"

import "unicode/utf16"

// Column is a column of a result (MS-TDS 2.2.7.4): its name, its type's byte and what this declares, and whether its values come in
// parts, each behind a count of four bytes.
type Column struct {
	Name             string
	Size, UserType   uint32
	Flags            uint16
	Kind             uint8
	Precision, Scale uint8
	Collation        [5]byte
	InParts          bool
}

// RowPlace is where a value's own bytes stand in a row's token, from its first byte on: of a value in parts all its parts.
type RowPlace struct {
	Start, Length uint64
	Null          bool
}

// Columns are the columns of a result. They are for one goroutine at a time.
type Columns struct {
	Columns []Column
	raw     []C.struct_tds_column // one more than there are: an address for none
	found   []C.struct_tds_place
	rows    C.size_t
	next    C.size_t
	taken   C.size_t
}

// NewColumns reads what the COLMETADATA describes that these bytes begin with; nil where it describes none, and those before it stay.
// encryption says that the login acknowledged column encryption.
func NewColumns(token []byte, encryption bool) (*Columns, error) {
	most := 0
	if len(token) > 2 {
		most = int(token[1]) | int(token[2])<<8
	}
	if most > C.TDS_WIRE_MOST_COLUMNS {
		most = C.TDS_WIRE_MOST_COLUMNS
	}
	var count, taken C.size_t
	columns := &Columns{raw: make([]C.struct_tds_column, most+1), found: make([]C.struct_tds_place, most+1)}
	answer := C.tds_columns(at(token), C.size_t(len(token)), oneWhere(encryption), &columns.raw[0], C.size_t(most), &count, &taken)
	switch answer {
	case C.TDS_WIRE_ENDED:
	case C.TDS_WIRE_SAME_COLUMNS:
		return nil, nil
	default:
		return nil, rowFault(answer)
	}
	for i := 0; i < int(count); i++ {
		columns.Columns = append(columns.Columns, columnOf(&columns.raw[i], token))
	}
	return columns, nil
}

func rowFault(answer C.uint8_t) error {
	if answer == C.TDS_WIRE_MORE {
		return Fault(C.TDS_WANTS_BYTES)
	}
	return Fault(answer)
}

func columnOf(it *C.struct_tds_column, token []byte) Column {
	var units []uint16
	for name := token[it.name.start : it.name.start+it.name.length]; len(name) > 1; name = name[2:] {
		units = append(units, uint16(name[0])|uint16(name[1])<<8)
	}
	column := Column{
		Name: string(utf16.Decode(units)), Size: uint32(it.size), UserType: uint32(it.user_type), Flags: uint16(it.flags),
		Kind: uint8(it.kind), Precision: uint8(it.precision), Scale: uint8(it.scale), InParts: it.shape.form == 5,
	}
	for i := range column.Collation {
		column.Collation[i] = byte(it.collation[i])
	}
	return column
}

// Places writes to places, which has room for the columns, where each value stands in the row that these bytes begin with, a ROW or
// an NBCROW, and gives how many bytes the row has. It allocates nothing.
func (columns *Columns) Places(row []byte, places []RowPlace) (int, error) {
	count := len(columns.Columns)
	if len(places) < count {
		return 0, Fault(C.TDS_NO_ROOM)
	}
	answer := C.tds_row_places(&columns.raw[0], C.size_t(count), at(row), C.size_t(len(row)), &columns.found[0], C.size_t(count),
		&columns.taken)
	if answer != C.TDS_WIRE_ENDED {
		return 0, rowFault(answer)
	}
	for i := range columns.found[:count] {
		it := &columns.found[i]
		places[i] = RowPlace{uint64(it.start), uint64(it.length), it.null != 0}
	}
	return int(columns.taken), nil
}

// PlacesOfRows does the same of the rows that these bytes begin with, one behind the other, from the first of these bytes on, row by row. It
// gives how many rows these are, and how many bytes they have: behind them stands nothing, another token, a row that isn't whole, or one
// more than there is room for. It allocates nothing where it had as much room before.
func (columns *Columns) PlacesOfRows(data []byte, places []RowPlace) (rows, taken int, err error) {
	count := len(columns.Columns)
	if len(columns.found) < len(places) {
		columns.found = make([]C.struct_tds_place, len(places))
	}
	answer := C.tds_places_of_rows(&columns.raw[0], C.size_t(count), at(data), C.size_t(len(data)), &columns.found[0], C.size_t(len(places)),
		&columns.rows, &columns.taken)
	rows, taken = int(columns.rows), int(columns.taken)
	for i := range columns.found[:rows*count] {
		it := &columns.found[i]
		places[i] = RowPlace{uint64(it.start), uint64(it.length), it.null != 0}
	}
	switch answer {
	case C.TDS_WIRE_ENDED, C.TDS_WIRE_MORE, C.TDS_WIRE_UNKNOWN_TOKEN, C.TDS_WIRE_MANY_COLUMNS:
		return rows, taken, nil
	}
	return 0, 0, Fault(answer)
}

// Come writes to places, at each column's own place, where each value stands that is whole in bytes that begin with the value of the column
// first, from the first of these bytes on; it gives the column whose value comes next, and where that begins. nulls is the null bitmap of
// an NBCROW.
func (columns *Columns) Come(first int, nulls, bytes []byte, places []RowPlace) (next, taken int, err error) {
	count := len(columns.Columns)
	if len(places) < count {
		return 0, 0, Fault(C.TDS_NO_ROOM)
	}
	answer := C.tds_row_values(&columns.raw[0], C.size_t(count), C.size_t(first), at(nulls), C.size_t(len(nulls)), at(bytes), C.size_t(len(bytes)),
		&columns.found[0], C.size_t(count), &columns.next, &columns.taken)
	if answer > C.TDS_WIRE_MORE {
		return 0, 0, Fault(answer)
	}
	for next = first; next < int(columns.next); next++ {
		it := &columns.found[next]
		places[next] = RowPlace{uint64(it.start), uint64(it.length), it.null != 0}
	}
	return next, int(columns.taken), nil
}

// Parts is a value in parts as its bytes come, from its first one on: zero before it.
type Parts struct {
	raw                 C.struct_tds_parts
	start, count, taken C.size_t
	IsOver, IsNull      bool
}

// Next takes what comes next of it, up to the end of a part: its own bytes among these, and how many of these are done with. Call it again
// with the bytes behind them, until there are none or it is over.
func (parts *Parts) Next(bytes []byte) ([]byte, int) {
	answer := C.tds_parts_next(&parts.raw, at(bytes), C.size_t(len(bytes)), &parts.start, &parts.count, &parts.taken)
	parts.IsOver, parts.IsNull = answer != C.TDS_WIRE_MORE, answer == C.TDS_PARTS_NULL
	return bytes[parts.start : parts.start+parts.count], int(parts.taken)
}
