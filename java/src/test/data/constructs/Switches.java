import java.io.*;

/** Switch statements and switch expressions. */
class Switches {
  int n;
  enum Kind { A, B, C }

  void breakEachOk(String k) throws IOException {
    InputStream in = new FileInputStream(k);
    switch (k) {
      case "a":
        in.close();
        break;
      default:
        in.close();
    }
  }

  void defaultFirstOk(String k) throws IOException {
    InputStream in = new FileInputStream(k);
    switch (k) {
      default:
        in.close();
        break;
      case "a":
        in.close();
    }
  }

  void noDefaultLeak(int k) throws IOException {
    InputStream in = new FileInputStream("x"); // leak
    switch (k) {
      case 1:
        in.close();
        break;
      case 2:
        in.close();
        break;
    }
  }

  void fallThroughOk(int k) throws IOException {
    InputStream in = new FileInputStream("x");
    switch (k) {
      case 1:
        n++;
      case 2:
        n++;
      default:
        in.close();
    }
  }

  void fallThroughLeak(int k) throws IOException {
    InputStream in = new FileInputStream("x"); // leak
    switch (k) {
      case 1:
        in.close();
      case 2:
        n++;
        break;
      default:
        in.close();
    }
  }

  void fallThroughTwiceOk(int k) throws IOException {
    InputStream in = null;
    switch (k) {
      case 1:
        in = new FileInputStream("x");
      case 2:
        if (in != null) {
          in.close();
        }
        break;
      default:
    }
  }

  void sharedLocalOk(int k) throws IOException {
    switch (k) {
      case 1:
        InputStream in = new FileInputStream("x");
        in.close();
        break;
      case 2:
        in = new FileInputStream("y");
        in.close();
    }
  }

  void breakWithinOk(int k) throws IOException {
    InputStream in = new FileInputStream("x");
    switch (k) {
      case 1:
        if (n > 2) {
          in.close();
          break;
        }
        in.close();
        break;
      default:
        in.close();
    }
  }

  void breakWithinLeak(int k) throws IOException {
    InputStream in = new FileInputStream("x"); // leak
    switch (k) {
      case 1:
        if (n > 2) {
          break;
        }
        in.close();
        break;
      default:
        in.close();
    }
  }

  void continueInSwitchOk(int k) throws IOException {
    for (int i = 0; i < k; i++) {
      InputStream in = new FileInputStream("x");
      switch (i) {
        case 1:
          in.close();
          continue;
        case 2:
          if (n > 2) {
            break;
          }
          n++;
          break;
        default:
          break;
      }
      in.close();
    }
  }

  void continueInSwitchLeak(int k) throws IOException {
    for (int i = 0; i < k; i++) {
      InputStream in = new FileInputStream("x"); // leak
      switch (i) {
        case 1:
          continue;
        case 2:
          if (n > 2) {
            break;
          }
          n++;
          break;
        default:
          break;
      }
      in.close();
    }
  }

  void arrowOk(Kind k) throws IOException {
    InputStream in = new FileInputStream("x");
    switch (k) {
      case A -> in.close();
      case B -> {
        n++;
        in.close();
      }
      default -> in.close();
    }
  }

  void arrowLeak(Kind k) throws IOException {
    InputStream in = new FileInputStream("x"); // leak
    switch (k) {
      case A, B -> in.close();
      case C -> n++;
    }
  }

  void arrowThrowOk(Kind k) throws IOException {
    InputStream in = new FileInputStream("x");
    switch (k) {
      case A -> in.close();
      default -> {
        in.close();
        throw new IOException("no");
      }
    }
  }

  void expressionOk(int k) throws IOException {
    InputStream in = switch (k) {
      case 1 -> new FileInputStream("x");
      default -> null;
    };
    if (in != null) {
      in.close();
    }
  }

  void expressionLeak(int k) throws IOException {
    InputStream in = switch (k) {
      case 1 -> new FileInputStream("x"); // leak
      default -> null;
    };
  }

  InputStream returnedExpressionOk(int k) throws IOException {
    return switch (k) {
      case 1 -> new FileInputStream("x");
      case 2 -> {
        n++;
        yield new FileInputStream("y");
      }
      default -> throw new IOException("z");
    };
  }

  void yieldLeak(int k) throws IOException {
    int v = switch (k) {
      case 1 -> {
        InputStream in = new FileInputStream("x"); // leak
        yield n;
      }
      default -> 3;
    };
  }

  void yieldInLoopOk(int k) throws IOException {
    InputStream in = switch (k) {
      case 1 -> {
        while (true) {
          if (n++ > 4) {
            yield new FileInputStream("x");
          }
        }
      }
      default -> null;
    };
    if (in != null) {
      in.close();
    }
  }

  void oldStyleExpressionOk(int k) throws IOException {
    InputStream in = switch (k) {
      case 1:
        n++;
      case 2:
        yield new FileInputStream("x");
      default:
        yield null;
    };
    if (in != null) {
      in.close();
    }
  }

  void argumentExpressionLeak(int k) throws IOException {
    use(new FileInputStream("x"), switch (k) { // leak
      case 1 -> read();
      default -> 2;
    });
  }

  void conditionExpressionOk(int k) throws IOException {
    InputStream in = new FileInputStream("x");
    while (switch (k) { case 1 -> n > 2; default -> false; }) {
      n++;
    }
    in.close();
  }

  void conditionalExpressionOk(int k, boolean b) throws IOException {
    InputStream in = b ? switch (k) {
      case 1 -> new FileInputStream("x");
      default -> null;
    } : null;
    if (in != null) {
      in.close();
    }
  }

  void andExpressionOk(int k, boolean b) throws IOException {
    InputStream in = new FileInputStream("x");
    if (b && switch (k) { case 1 -> n > 2; default -> false; }) {
      n++;
    }
    in.close();
  }

  int read() throws IOException {
    return 1;
  }

  void use(InputStream in, int k) {
  }

  void nestedOk(int k, int l) throws IOException {
    InputStream in = new FileInputStream("x");
    switch (k) {
      case 1:
        switch (l) {
          case 1:
            in.close();
            break;
          default:
            in.close();
        }
        break;
      default:
        in.close();
    }
  }
}
