import java.io.IOException;
import java.net.Socket;

class AliasKept {
    private static @MustCallAlias Socket same(@MustCallAlias Socket socket) throws IOException {
        return new Socket("localhost", 80);
    }
}
