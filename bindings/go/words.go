package mysqlparams

// isOfNames returns whether a byte is one of those that names are of.
func isOfNames(b byte) bool {
	return b == '_' || '0' <= b && b <= '9' || 'A' <= b && b <= 'Z' || 'a' <= b && b <= 'z'
}

// wordAt returns the word that begins at a byte of a query, if it is more than a name.
func wordAt(query string, begin int) string {
	if begin < 0 || begin > len(query) {
		return ""
	}
	end, isName := begin, true
	for end < len(query) && (isOfNames(query[end]) || query[end] >= 128) {
		isName = isName && isOfNames(query[end])
		end++
	}
	if isName {
		return ""
	}
	return query[begin:end]
}

// wordOfPlace returns the word that begins with the name of the place at a byte of a query, if it isn't a
// name alone.
func wordOfPlace(query string, position int) string {
	if position >= 0 && position < len(query) && query[position] == ':' {
		return wordAt(query, position+1)
	}
	return ""
}

// wordWithoutName returns the first word after a colon that begins with a letter that no name has.
func wordWithoutName(query string) string {
	for i := 1; i < len(query); i++ {
		if query[i-1] == ':' && query[i] >= 128 {
			return wordAt(query, i)
		}
	}
	return ""
}
