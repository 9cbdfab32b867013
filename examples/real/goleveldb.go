// A database of goleveldb, without compression: `goleveldb make|more|rows|settle DIR`.
package main

import (
	"fmt"
	"os"

	"github.com/syndtr/goleveldb/leveldb"
	"github.com/syndtr/goleveldb/leveldb/opt"
)

// Small, so that a few thousand keys make several files.
var options = &opt.Options{
	Compression:         opt.NoCompression,
	WriteBuffer:         64 << 10,
	CompactionTableSize: 32 << 10,
}

func must(err error) {
	if err != nil {
		fmt.Fprintln(os.Stderr, "goleveldb:", err)
		os.Exit(1)
	}
}

// Opens a database, does this with it, and closes it.
func with(folder string, do func(db *leveldb.DB)) {
	db, err := leveldb.OpenFile(folder, options)
	must(err)
	do(db)
	must(db.Close())
}

// Puts so many keys in a mixed order, of which each fifth is deleted again.
func put(db *leveldb.DB, count, keys int, word string) {
	for it := 0; it < count; it++ {
		key := []byte(fmt.Sprintf("k%05d", it*7919%keys))
		must(db.Put(key, []byte(fmt.Sprintf("%s %d of %s", word, it, key)), nil))
		if it%5 == 4 {
			must(db.Delete(key, nil))
		}
	}
}

func rows(db *leveldb.DB) {
	all := db.NewIterator(nil, nil)
	for all.Next() {
		fmt.Printf("%x %x\n", all.Key(), all.Value())
	}
	all.Release()
	must(all.Error())
}

func main() {
	switch verb, folder := os.Args[1], os.Args[2]; verb {
	case "make":
		with(folder, func(db *leveldb.DB) { put(db, 20000, 6000, "first") })
	case "more":
		with(folder, func(db *leveldb.DB) { put(db, 3000, 8000, "later") })
	case "rows":
		with(folder, rows)
	case "settle":
		// Twice, until its log is empty and its manifest written anew.
		with(folder, func(db *leveldb.DB) {})
		with(folder, func(db *leveldb.DB) {})
	}
}
