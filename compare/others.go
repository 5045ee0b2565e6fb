// Times functions of Go's package html, in a process of its own. Started by compare/run benchmark --others.
//
//	others FOLDER ROUNDS MICROSECONDS
//
// The file `jobs` in FOLDER has a line "NUMBER FUNCTION" for each line of the benchmark; its texts are in the file NUMBER, each after its length and a
// line end. For each job it prints its number and the median of the rounds in nanoseconds of the process's processor time (garbage collection included) for one
// pass over the texts. The results go to the file NUMBER.out, each after its length and a line end.
package main

import (
	"bytes"
	"fmt"
	"html"
	"os"
	"sort"
	"strconv"
	"strings"
	"syscall"
)

var functions = map[string]func(string) string{"EscapeString": html.EscapeString, "UnescapeString": html.UnescapeString}

func must(err error) {
	if err != nil {
		fmt.Fprintln(os.Stderr, "compare/others.go:", err)
		os.Exit(2)
	}
}

// Returns the processor time of the process so far, in nanoseconds.
func spent() int64 {
	var usage syscall.Rusage
	must(syscall.Getrusage(syscall.RUSAGE_SELF, &usage))
	return usage.Utime.Nano() + usage.Stime.Nano()
}

// Returns the texts of a file.
func texts(path string) []string {
	rest, err := os.ReadFile(path)
	must(err)
	all := []string{}
	for len(rest) > 0 {
		end := bytes.IndexByte(rest, '\n')
		length, err := strconv.Atoi(string(rest[:end]))
		must(err)
		all = append(all, string(rest[end+1:end+1+length]))
		rest = rest[end+1+length:]
	}
	return all
}

// Returns the median time of one pass over the texts.
func median(function func(string) string, texts []string, rounds int, round int64) float64 {
	length, repeats := 0, 1
	pass := func() int64 {
		began := spent()
		for i := 0; i < repeats; i++ {
			for _, text := range texts {
				length += len(function(text))
			}
		}
		return spent() - began
	}
	for pass() < round {
		repeats *= 2
	}
	times := make([]float64, rounds)
	for i := range times {
		times[i] = float64(pass()) / float64(repeats)
	}
	sort.Float64s(times)
	return times[rounds/2]
}

func main() {
	folder := os.Args[1] + "/"
	rounds, err := strconv.Atoi(os.Args[2])
	must(err)
	micros, err := strconv.ParseInt(os.Args[3], 10, 64)
	must(err)
	jobs, err := os.ReadFile(folder + "jobs")
	must(err)
	for _, job := range strings.Split(strings.TrimSpace(string(jobs)), "\n") {
		words := strings.Fields(job)
		function, given := functions[words[1]], texts(folder+words[0])
		var results bytes.Buffer
		for _, text := range given {
			result := function(text)
			fmt.Fprintf(&results, "%d\n%s", len(result), result)
		}
		must(os.WriteFile(folder+words[0]+".out", results.Bytes(), 0o666))
		fmt.Println(words[0], median(function, given, rounds, 1000*micros))
	}
}
