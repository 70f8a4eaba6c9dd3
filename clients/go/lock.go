package pokhnier

import (
	"context"
	"errors"
	"fmt"
	"os"
	"syscall"
	"time"
)

// How long a store may be in use by another program.
var busyTime = 10 * time.Second

// lockClient takes the lock of a store's clients, and keeps it while the file is open. So no
// function of this run goes on while another program has the store.
func lockClient(run context.Context, path string) (*os.File, error) {
	file, err := os.OpenFile(path, os.O_CREATE|os.O_RDWR, 0o666)
	if err != nil {
		return nil, err
	}
	for end := time.Now().Add(busyTime); ; {
		err := syscall.Flock(int(file.Fd()), syscall.LOCK_EX|syscall.LOCK_NB)
		if err == nil {
			return file, nil
		}
		isBusy := errors.Is(err, syscall.EWOULDBLOCK) || errors.Is(err, syscall.EINTR)
		if !isBusy || time.Now().After(end) {
			file.Close()
			return nil, errors.Join(ErrInUse, err)
		}
		if err := pause(run, 20*time.Millisecond); err != nil {
			file.Close()
			return nil, err
		}
	}
}

// pause waits so long, unless this run ends.
func pause(run context.Context, wait time.Duration) error {
	timer := time.NewTimer(wait)
	defer timer.Stop()
	select {
	case <-timer.C:
		return nil
	case <-run.Done():
		return fmt.Errorf("%w: %w", ErrInterrupted, context.Cause(run))
	}
}
