package rlc.front.plugin;

import java.io.IOException;
import rlc.front.runs.RunException;

/** Runs something on a stack that is deep enough for expressions and statements deep in others. */
final class DeepStack<T> {
  private static final long BYTES = 1L << 29;

  /** What is run. */
  interface Work<T> {
    /** Runs it. */
    T run() throws IOException, RunException;
  }

  private final Work<T> work;
  private T result;
  private Throwable thrown;

  DeepStack(Work<T> work) {
    this.work = work;
  }

  /** Runs it, and gives its result or throws what it throws. */
  T run() throws IOException, RunException {
    Thread thread = new Thread(null, this::attempt, "rlc", BYTES);
    thread.start();
    try {
      thread.join();
    } catch (InterruptedException e) {
      thread.interrupt();
      Thread.currentThread().interrupt();
      throw new RunException("the run was interrupted");
    }
    if (thrown instanceof IOException e) {
      throw e;
    }
    if (thrown instanceof RunException e) {
      throw e;
    }
    if (thrown instanceof RuntimeException e) {
      throw e;
    }
    if (thrown instanceof Error e) {
      throw e;
    }
    return result;
  }

  private void attempt() {
    try {
      result = work.run();
    } catch (Throwable e) {
      thrown = e;
    }
  }
}
