//go:build dadofennel_static

package dadofennel

// The archive, from the folder that pkg-config names. What pkg-config adds after it finds nothing left to link, so the shared library
// isn't needed where the program runs.

// #cgo pkg-config: dadofennel
// #cgo LDFLAGS: -l:libdadofennel.a -Wl,--as-needed
import "C"
