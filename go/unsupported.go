//go:build !(cgo && linux && amd64)

package capn

func callVersion() string { return "" }

func callStatusText(uint32) string { return "" }

func callCheck(Form, []byte, Limits) (uint32, report) { return unsupported, report{} }

func callCanonical(Form, []byte, Limits, []byte) (uint32, report) { return unsupported, report{} }

func callIsCanonical([]byte, Limits) (uint32, report) { return unsupported, report{} }

func callHash(Form, []byte, Limits) ([32]byte, uint32, report) {
	return [32]byte{}, unsupported, report{}
}

func callSame(_ Form, _, _ []byte, _ Limits) (which, status uint32, r report) {
	return 0, unsupported, report{}
}

func callSurvey(Form, []byte, Limits) (Figures, uint32, report) {
	return Figures{}, unsupported, report{}
}

func callShow(Form, []byte, Limits, Style, []byte) (uint32, report) { return unsupported, report{} }

func callPack(_, _ []byte) (uint32, report) { return unsupported, report{} }

func callUnpack([]byte, uint32, []byte) (uint32, report) { return unsupported, report{} }

func callUnpackSome(_, _ []byte) (uint32, report) { return unsupported, report{} }

func callFirst([]byte, Limits) (uint32, report) { return unsupported, report{} }

func callRefusalWay(Form, []byte, Limits, []uint32) (uint32, report) { return unsupported, report{} }

func callDeparture(Form, []byte, Limits, []uint32) (departed, uint32, report) {
	return departed{}, unsupported, report{}
}

func callIndex(Form, []byte, Limits, []entry) (uint32, report) { return unsupported, report{} }

func callAnnotate(Form, []byte, Limits, []line) (uint32, report) { return unsupported, report{} }
