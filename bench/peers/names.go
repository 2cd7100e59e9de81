// names FILE PASSES FORM: what names.c does, by Go's package norm, which has no look at unassigned code points.
package main

import (
	"bytes"
	"fmt"
	"hash/fnv"
	"log"
	"os"
	"strconv"
	"time"

	"golang.org/x/text/unicode/norm"
)

func main() {
	text, err := os.ReadFile(os.Args[1])
	if err != nil {
		log.Fatal(err)
	}
	passes, err := strconv.Atoi(os.Args[2])
	if err != nil {
		log.Fatal(err)
	}
	form := map[string]norm.Form{"nfc": norm.NFC, "nfd": norm.NFD}[os.Args[3]]
	names := bytes.Split(bytes.TrimSuffix(text, []byte("\n")), []byte("\n"))
	sum, room := fnv.New64a(), make([]byte, 0, 4096)
	for _, name := range names {
		sum.Write(append(form.Append(room[:0], name...), '\n'))
	}
	var least time.Duration = 1 << 62
	for pass := 0; pass < passes; pass++ {
		begun := time.Now()
		for _, name := range names {
			room = form.Append(room[:0], name...)
		}
		if took := time.Since(begun); took < least {
			least = took
		}
	}
	fmt.Printf("version %s\nform %.1f %016x\n", norm.Version, float64(least.Nanoseconds())/float64(len(names)), sum.Sum64())
}
