// Sends standard input to a tus server as one stream whose length nobody knows before its end, and fetches it back:
//
//	go run tests/sender.go URL <given >fetched
//
// What the server refuses is said on standard error, with its status and words, and the exit status is 1.
package main

import (
	"fmt"
	"io"
	"net/http"
	"os"
	"strings"
)

const media = "Content-Type: application/offset+octet-stream"

func end(why string) {
	fmt.Fprintln(os.Stderr, "sender: "+why)
	os.Exit(1)
}

// ask sends a request with these fields. An answer that refuses ends the program, as a fault does.
func ask(method, url string, body io.Reader, fields ...string) *http.Response {
	request, fault := http.NewRequest(method, url, body)
	if fault != nil {
		end(fault.Error())
	}
	for _, field := range append(fields, "Tus-Resumable: 1.0.0") {
		name, value, _ := strings.Cut(field, ": ")
		request.Header.Set(name, value)
	}
	answer, fault := http.DefaultClient.Do(request)
	if fault != nil {
		end(fault.Error())
	}
	if answer.StatusCode >= 300 {
		words, _ := io.ReadAll(answer.Body)
		end(fmt.Sprintf("%d: %s", answer.StatusCode, strings.TrimSpace(string(words))))
	}
	return answer
}

func main() {
	place, fault := ask("POST", os.Args[1], nil, "Upload-Defer-Length: 1").Location()
	if fault != nil {
		end(fault.Error())
	}
	url := place.String()
	// A file has no length that net/http would ask for, so the body goes in chunks.
	sent := ask("PATCH", url, os.Stdin, media, "Upload-Offset: 0")
	reached := sent.Header.Get("Upload-Offset")
	ask("PATCH", url, nil, media, "Upload-Offset: "+reached, "Upload-Length: "+reached)
	if _, fault := io.Copy(os.Stdout, ask("GET", url, nil).Body); fault != nil {
		end(fault.Error())
	}
}
