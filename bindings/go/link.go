//go:build !dadofennel_static

package dadofennel

// #cgo pkg-config: dadofennel
import "C"
