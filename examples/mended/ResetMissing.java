import java.io.IOException;
import java.net.Socket;

@InheritableMustCall("close")
class ResetMissing {
    private @Owning Socket socket;

    @CreatesMustCallFor("this")
    void connect() throws IOException {
        if (socket != null) {
            socket.close();
        }
        socket = new Socket("localhost", 80);
    }

    @EnsuresCalledMethods(value = "this.socket", methods = "close")
    void close() throws IOException {
        socket.close();
    }
}
