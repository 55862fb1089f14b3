//go:build race

package capn

// isRace is whether the race detector watches the tests.
const isRace = true
