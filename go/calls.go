//go:build cgo && linux && amd64

package capn

// #cgo pkg-config: capn
// #include <capn.h>
//
// // Each call answers its report beside its status, so that Go has none on its heap.
// typedef struct { capn_status status; capn_report report; } capn_told;
// typedef struct { capn_status status; capn_report report; uint8_t digest[32]; } capn_hashed;
// typedef struct { capn_status status; capn_report report; uint32_t which; } capn_compared;
// typedef struct { capn_status status; capn_report report; capn_figures figures; } capn_surveyed;
// typedef struct { capn_status status; capn_report report; capn_departed departed; } capn_left;
//
// static capn_told told_check(uint32_t form, const uint8_t *bytes, size_t size, capn_limits limits) {
//     capn_told told;
//     told.status = capn_check(form, bytes, size, &limits, &told.report);
//     return told;
// }
// static capn_told told_canonical(uint32_t form, const uint8_t *bytes, size_t size, capn_limits limits, uint8_t *out,
//                                 size_t room) {
//     capn_told told;
//     told.status = capn_canonical(form, bytes, size, &limits, out, room, &told.report);
//     return told;
// }
// static capn_told told_is_canonical(const uint8_t *bytes, size_t size, capn_limits limits) {
//     capn_told told;
//     told.status = capn_is_canonical(bytes, size, &limits, &told.report);
//     return told;
// }
// static capn_hashed told_hash(uint32_t form, const uint8_t *bytes, size_t size, capn_limits limits) {
//     capn_hashed told;
//     told.status = capn_hash(form, bytes, size, &limits, told.digest, &told.report);
//     return told;
// }
// static capn_compared told_same(uint32_t form, const uint8_t *a, size_t size_a, const uint8_t *b, size_t size_b,
//                                capn_limits limits) {
//     capn_compared told;
//     told.status = capn_same(form, a, size_a, b, size_b, &limits, &told.which, &told.report);
//     return told;
// }
// static capn_surveyed told_survey(uint32_t form, const uint8_t *bytes, size_t size, capn_limits limits) {
//     capn_surveyed told;
//     told.status = capn_survey(form, bytes, size, &limits, &told.figures, &told.report);
//     return told;
// }
// static capn_told told_show(uint32_t form, const uint8_t *bytes, size_t size, capn_limits limits, uint32_t style,
//                            uint8_t *out, size_t room) {
//     capn_told told;
//     told.status = capn_show(form, bytes, size, &limits, style, (char *)out, room, &told.report);
//     return told;
// }
// static capn_told told_pack(const uint8_t *bytes, size_t size, uint8_t *out, size_t room) {
//     capn_told told;
//     told.status = capn_pack(bytes, size, out, room, &told.report);
//     return told;
// }
// static capn_told told_unpack(const uint8_t *bytes, size_t size, uint32_t most, uint8_t *out, size_t room) {
//     capn_told told;
//     told.status = capn_unpack(bytes, size, most, out, room, &told.report);
//     return told;
// }
// static capn_told told_unpack_some(const uint8_t *bytes, size_t size, uint8_t *out, size_t room) {
//     capn_told told;
//     told.status = capn_unpack_some(bytes, size, out, room, &told.report);
//     return told;
// }
// static capn_told told_first(const uint8_t *bytes, size_t size, capn_limits limits) {
//     capn_told told;
//     told.status = capn_first(bytes, size, &limits, &told.report);
//     return told;
// }
// static capn_told told_refusal_way(uint32_t form, const uint8_t *bytes, size_t size, capn_limits limits,
//                                   uint32_t *way, size_t most) {
//     capn_told told;
//     told.status = capn_refusal_way(form, bytes, size, &limits, way, most, &told.report);
//     return told;
// }
// static capn_left told_departure(uint32_t form, const uint8_t *bytes, size_t size, capn_limits limits, uint32_t *way,
//                                 size_t most) {
//     capn_left told;
//     told.status = capn_departure(form, bytes, size, &limits, &told.departed, way, most, &told.report);
//     return told;
// }
// static capn_told told_index(uint32_t form, const uint8_t *bytes, size_t size, capn_limits limits,
//                             capn_entry *entries, size_t room) {
//     capn_told told;
//     told.status = capn_index(form, bytes, size, &limits, entries, room, &told.report);
//     return told;
// }
// static capn_told told_annotate(uint32_t form, const uint8_t *bytes, size_t size, capn_limits limits,
//                                capn_line *lines, size_t most) {
//     capn_told told;
//     told.status = capn_annotate(form, bytes, size, &limits, lines, most, &told.report);
//     return told;
// }
import "C"

import "unsafe"

// The entries and lines that the library writes are those that Go reads: each of these lines fails to compile if they
// differ.
const (
	_ = uint(unsafe.Sizeof(entry{}) - unsafe.Sizeof(C.capn_entry{}))
	_ = uint(unsafe.Sizeof(C.capn_entry{}) - unsafe.Sizeof(entry{}))
	_ = uint(unsafe.Offsetof(entry{}.kind) - unsafe.Offsetof(C.capn_entry{}.kind))
	_ = uint(unsafe.Offsetof(C.capn_entry{}.kind) - unsafe.Offsetof(entry{}.kind))
	_ = uint(unsafe.Sizeof(line{}) - unsafe.Sizeof(C.capn_line{}))
	_ = uint(unsafe.Sizeof(C.capn_line{}) - unsafe.Sizeof(line{}))
	_ = uint(unsafe.Offsetof(line{}.flags) - unsafe.Offsetof(C.capn_line{}.flags))
	_ = uint(unsafe.Offsetof(C.capn_line{}.flags) - unsafe.Offsetof(line{}.flags))
)

func start(bytes []byte) *C.uint8_t {
	if len(bytes) == 0 {
		return nil
	}
	return (*C.uint8_t)(unsafe.Pointer(&bytes[0]))
}

func laidOut(l Limits) C.capn_limits {
	return C.capn_limits{
		// c/limits.txt: laid out in go
		message_words: C.uint32_t(l.MessageWords),
		budget:        C.uint32_t(l.Budget),
		depth:         C.uint32_t(l.Depth),
		tariff:        C.uint32_t(l.Tariff),
		// c/limits.txt ends
	}
}

func reported(r C.capn_report) report {
	return report{uint64(r.length), uint64(r.at), uint32(r.paid), uint32(r.visits), uint32(r.segment), uint32(r.word)}
}

func callVersion() string { return C.GoString(C.capn_version()) }

func callStatusText(status uint32) string {
	return C.GoString(C.capn_status_text(C.capn_status(status)))
}

func callCheck(form Form, m []byte, l Limits) (uint32, report) {
	told := C.told_check(C.uint32_t(form), start(m), C.size_t(len(m)), laidOut(l))
	return uint32(told.status), reported(told.report)
}

func callCanonical(form Form, m []byte, l Limits, out []byte) (uint32, report) {
	told := C.told_canonical(C.uint32_t(form), start(m), C.size_t(len(m)), laidOut(l), start(out), C.size_t(len(out)))
	return uint32(told.status), reported(told.report)
}

func callIsCanonical(m []byte, l Limits) (uint32, report) {
	told := C.told_is_canonical(start(m), C.size_t(len(m)), laidOut(l))
	return uint32(told.status), reported(told.report)
}

func callHash(form Form, m []byte, l Limits) ([32]byte, uint32, report) {
	told := C.told_hash(C.uint32_t(form), start(m), C.size_t(len(m)), laidOut(l))
	return *(*[32]byte)(unsafe.Pointer(&told.digest)), uint32(told.status), reported(told.report)
}

func callSame(form Form, a, b []byte, l Limits) (which, status uint32, r report) {
	told := C.told_same(C.uint32_t(form), start(a), C.size_t(len(a)), start(b), C.size_t(len(b)), laidOut(l))
	return uint32(told.which), uint32(told.status), reported(told.report)
}

func callSurvey(form Form, m []byte, l Limits) (Figures, uint32, report) {
	told := C.told_survey(C.uint32_t(form), start(m), C.size_t(len(m)), laidOut(l))
	f := told.figures
	figures := Figures{
		Words: uint32(f.words), Segments: uint32(f.segments), Paid: uint32(f.paid), Visits: uint32(f.visits),
		Depth: uint32(f.depth), HasCapability: f.has_capability != 0, Capability: uint32(f.capability),
		Canonical: f.canonical != 0,
	}
	return figures, uint32(told.status), reported(told.report)
}

func callShow(form Form, m []byte, l Limits, style Style, out []byte) (uint32, report) {
	told := C.told_show(C.uint32_t(form), start(m), C.size_t(len(m)), laidOut(l), C.uint32_t(style), start(out),
		C.size_t(len(out)))
	return uint32(told.status), reported(told.report)
}

func callPack(m, out []byte) (uint32, report) {
	told := C.told_pack(start(m), C.size_t(len(m)), start(out), C.size_t(len(out)))
	return uint32(told.status), reported(told.report)
}

func callUnpack(m []byte, most uint32, out []byte) (uint32, report) {
	told := C.told_unpack(start(m), C.size_t(len(m)), C.uint32_t(most), start(out), C.size_t(len(out)))
	return uint32(told.status), reported(told.report)
}

func callUnpackSome(m, out []byte) (uint32, report) {
	told := C.told_unpack_some(start(m), C.size_t(len(m)), start(out), C.size_t(len(out)))
	return uint32(told.status), reported(told.report)
}

func callFirst(m []byte, l Limits) (uint32, report) {
	told := C.told_first(start(m), C.size_t(len(m)), laidOut(l))
	return uint32(told.status), reported(told.report)
}

func callRefusalWay(form Form, m []byte, l Limits, way []uint32) (uint32, report) {
	told := C.told_refusal_way(C.uint32_t(form), start(m), C.size_t(len(m)), laidOut(l), startOfWay(way),
		C.size_t(len(way)))
	return uint32(told.status), reported(told.report)
}

func callDeparture(form Form, m []byte, l Limits, way []uint32) (departed, uint32, report) {
	told := C.told_departure(C.uint32_t(form), start(m), C.size_t(len(m)), laidOut(l), startOfWay(way),
		C.size_t(len(way)))
	if told.status != ok {
		return departed{}, uint32(told.status), reported(told.report)
	}
	d := told.departed
	found := departed{
		is: uint64(d.is), canonical: uint64(d.canonical), kind: uint32(d.kind), owner: uint32(d.owner),
		word: uint32(d.word), count: uint32(d.count), numbers: uint32(d.numbers),
	}
	return found, ok, reported(told.report)
}

func startOfWay(way []uint32) *C.uint32_t {
	if len(way) == 0 {
		return nil
	}
	return (*C.uint32_t)(unsafe.Pointer(&way[0]))
}

func callIndex(form Form, m []byte, l Limits, entries []entry) (uint32, report) {
	var first *C.capn_entry
	if len(entries) != 0 {
		first = (*C.capn_entry)(unsafe.Pointer(&entries[0]))
	}
	told := C.told_index(C.uint32_t(form), start(m), C.size_t(len(m)), laidOut(l), first, C.size_t(len(entries)))
	return uint32(told.status), reported(told.report)
}

func callAnnotate(form Form, m []byte, l Limits, lines []line) (uint32, report) {
	var first *C.capn_line
	if len(lines) != 0 {
		first = (*C.capn_line)(unsafe.Pointer(&lines[0]))
	}
	told := C.told_annotate(C.uint32_t(form), start(m), C.size_t(len(m)), laidOut(l), first, C.size_t(len(lines)))
	return uint32(told.status), reported(told.report)
}
