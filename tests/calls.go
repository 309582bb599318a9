// Makes the calls of the Go client that lines name, for client_cases.py, and prints what comes of each.
//
// usage: calls SOCKET SECONDS
//
// A line is `SECONDS CALL`, or `send COMMAND`. SECONDS is the deadline; `-` is none. `SECONDS together G COUNT` has
// four goroutines abcast so many messages each. It ends with 1 where the closed session leaves a goroutine.
package main

import (
	"bufio"
	"context"
	"errors"
	"fmt"
	"os"
	"runtime"
	"strconv"
	"strings"
	"time"

	"castd"
)

func main() {
	ctx, cancel := contextOf(os.Args[2])
	session, err := castd.Connect(ctx, os.Args[1])
	cancel()
	if err != nil {
		fmt.Println(failure(err))
		return
	}
	fmt.Println("connected", session.Process())
	input := bufio.NewScanner(os.Stdin)
	for input.Scan() {
		how, call, _ := strings.Cut(input.Text(), " ")
		answer, err := answerTo(session, how, call)
		if err != nil {
			answer = failure(err)
		}
		fmt.Println(answer)
	}
	session.Close()
	// A timer of the session may just be over.
	for i := 0; runtime.NumGoroutine() > 1; i++ {
		if time.Sleep(time.Millisecond); i > 1_000 {
			os.Exit(1)
		}
	}
}

func contextOf(word string) (context.Context, context.CancelFunc) {
	if word == "-" {
		return context.WithCancel(context.Background())
	}
	seconds, err := strconv.ParseFloat(word, 64)
	if err != nil {
		panic(err)
	}
	return context.WithTimeout(context.Background(), time.Duration(seconds*float64(time.Second)))
}

func answerTo(session *castd.Session, how, call string) (string, error) {
	words := append(strings.SplitN(call, " ", 3), "0", "")
	word, text := words[0], words[2]
	number, _ := strconv.ParseUint(words[1], 10, 16)
	group, payload := uint16(number), []byte(text)
	var process castd.Process
	fmt.Sscanf(text, "%d.%d", &process.Site, &process.Serial)
	if how == "send" {
		commands := map[string]castd.Command{
			"join":   castd.Join(group),
			"leave":  castd.Leave(group),
			"cast":   castd.Cast(group, castd.Causal, payload),
			"abcast": castd.Cast(group, castd.Atomic, payload),
			"pass":   castd.Pass(group, process),
		}
		tag, err := session.Send(commands[word])
		return fmt.Sprint("tag ", tag), err
	}
	ctx, cancel := contextOf(how)
	defer cancel()
	switch word {
	case "read":
		push, err := session.Read(ctx)
		if errors.Is(err, context.DeadlineExceeded) {
			return "none", nil
		}
		return textOf(push), err
	case "join":
		view, err := session.Join(ctx, group)
		return textOf(view), err
	case "leave":
		return "done", session.Leave(ctx, group)
	case "cast":
		return "done", session.Cast(ctx, group, payload)
	case "abcast":
		return "done", session.Abcast(ctx, group, payload)
	case "together":
		count, _ := strconv.Atoi(text)
		return "done", together(ctx, session, group, count)
	}
	return "done", session.Pass(ctx, group, process)
}

// together has four goroutines abcast so many messages each.
func together(ctx context.Context, session *castd.Session, group uint16, count int) (failed error) {
	errs := make(chan error)
	for i := 0; i < 4; i++ {
		go func(i int) {
			var err error
			for n := 0; n < count && err == nil; n++ {
				err = session.Abcast(ctx, group, []byte(fmt.Sprintf("%d:%d", i, n)))
			}
			errs <- err
		}(i)
	}
	for i := 0; i < 4; i++ {
		if err := <-errs; err != nil {
			failed = err
		}
	}
	return failed
}

func textOf(push castd.Push) string {
	switch push := push.(type) {
	case castd.Opened:
		return fmt.Sprint("opened ", push.Process)
	case castd.Reply:
		return fmt.Sprintf("reply %d %v", push.Tag, push.Code)
	case castd.View:
		return fmt.Sprintf("view %d %d %s", push.Group, push.View, strings.Trim(fmt.Sprint(push.Members), "[]"))
	case castd.Deliver:
		return fmt.Sprintf("deliver %s", push.Payload)
	case castd.Ejected:
		return fmt.Sprintf("ejected %d %d", push.Group, push.View)
	case castd.Denied:
		return fmt.Sprintf("denied %d %v", push.Group, push.Code)
	case castd.Closed:
		return fmt.Sprintf("closed %v", push.Code)
	}
	return "no push"
}

func failure(err error) string {
	var code castd.Code
	var failed *castd.Error
	if errors.As(err, &code) {
		return fmt.Sprintf("refused %v", code)
	}
	if !errors.As(err, &failed) {
		return "failed"
	}
	text := "late"
	switch {
	case errors.Is(err, castd.ErrBadFrame):
		text = "bad frame"
	case errors.Is(err, castd.ErrEnded) && failed.Code != castd.Done:
		text = fmt.Sprintf("ended %v", failed.Code)
	case errors.Is(err, castd.ErrEnded):
		text = "ended"
	}
	if failed.MayBeDone {
		text += ", may be done"
	}
	return text
}
