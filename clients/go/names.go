package pokhnier

import (
	"crypto/sha256"
	"encoding/hex"
	"strings"
)

// The page ../README.md says which names groups and keys have in the store.

const longestKey, longestGroup = 32, 20

// keyName returns the name of a key in the store: the key itself if it is a name, otherwise what is
// left of it, and a part of its hash.
func keyName(text string) string {
	if isName(text, longestKey) {
		return text
	}
	return hashed(text, 19, 12)
}

// groupName returns the name of a group or a scope in the plan. Some names are those of the program
// or of clients.
func groupName(text string) string {
	isOwn := text == "night" || strings.HasPrefix(text, "_") || strings.Contains(text, "--")
	if isName(text, longestGroup) && !isOwn {
		return text
	}
	return hashed(text, 9, 10)
}

// isName reports whether a text is a name of the store with at most this many bytes.
func isName(text string, longest int) bool {
	for _, b := range []byte(text) {
		if !isPlain(b) && b != '-' {
			return false
		}
	}
	return 1 <= len(text) && len(text) <= longest
}

func isPlain(b byte) bool {
	return 'a' <= b && b <= 'z' || '0' <= b && b <= '9' || b == '_'
}

// hashed returns a readable part of a text, and digits of the hash of all of it.
func hashed(text string, kept, digits int) string {
	sum := sha256.Sum256([]byte(text))
	slug := strings.Trim(slugOf(text), "-")
	slug = strings.TrimRight(slug[:min(kept, len(slug))], "-")
	return slug + "_" + hex.EncodeToString(sum[:])[:digits]
}

// slugOf returns a text in lower case, with a hyphen for each run of other bytes.
func slugOf(text string) string {
	var slug []byte
	for _, b := range []byte(text) {
		if 'A' <= b && b <= 'Z' {
			b += 'a' - 'A'
		}
		switch {
		case isPlain(b):
			slug = append(slug, b)
		case len(slug) == 0 || slug[len(slug)-1] != '-':
			slug = append(slug, '-')
		}
	}
	return string(slug)
}
