package nutrameza.tests;

import java.nio.ByteBuffer;
import java.nio.ByteOrder;
import java.util.ArrayList;
import java.util.List;
import nutrameza.Policy;

/** Images for the tests, word by word; nothing is judged here. */
final class Images {
    static final int DOCTOR = 0;
    static final int MANAGER = 1;
    static final int READ_ID = 0;
    static final int RECORDS = 1;
    static final int PRESCRIBE = 2;
    static final int SEND_DATA = 4;

    private final List<Integer> words = new ArrayList<>();

    Images(int users, int roles, int permissions) {
        words.add(1 << 28 | users << 21 | roles << 14 | permissions << 5);
    }

    Images assign(int user, int role) {
        words.add(2 << 28 | user << 22 | role << 16);
        return this;
    }

    Images grant(int role, int... permissions) {
        for (int permission : permissions) {
            words.add(3 << 28 | role << 22 | permission << 14);
        }
        return this;
    }

    Images senior(int senior, int junior) {
        words.add(4 << 28 | senior << 22 | junior << 16);
        return this;
    }

    Images exclude(int kind, int n, int... members) {
        words.add(5 << 28 | kind << 26 | n << 19 | members.length << 12);
        for (int member : members) {
            words.add(6 << 28 | member << 22);
        }
        return this;
    }

    Images limit(int role, int t) {
        words.add(7 << 28 | role << 22 | t << 13);
        return this;
    }

    byte[] image() {
        ByteBuffer bytes = ByteBuffer.allocate(4 * words.size() + 4).order(ByteOrder.LITTLE_ENDIAN);
        int sum = 0;
        for (int word : words) {
            sum += word;
            bytes.putInt(word);
        }
        return bytes.putInt(15 << 28 | -sum & 0x0FFFFFFF).array();
    }

    Policy policy() {
        return Policy.of(image());
    }

    /** The ward of examples/ward.policy. */
    static Images ward() {
        return new Images(1, 2, 5).assign(0, DOCTOR).assign(0, MANAGER).grant(DOCTOR, 0, 1, 2, 3).grant(MANAGER, 1, 4)
            .exclude(1, 2, DOCTOR, MANAGER);
    }

    /** Three roles over one another, which is refused by 22. */
    static Images looped() {
        return new Images(1, 3, 1).senior(0, 1).senior(1, 2).senior(2, 0);
    }
}
