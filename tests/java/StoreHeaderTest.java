package nutrameza;

import static nutrameza.tests.Check.same;

import java.nio.charset.StandardCharsets;

/** What the store's library says of its numbers and its version. */
public final class StoreHeaderTest {
    public void wordsOfRefusals() {
        Library.STORE.load();
        for (Refusal one : Refusal.values()) {
            if (one != Refusal.OTHER) {
                same(new String(StoreNative.wordOf(one.number()), StandardCharsets.UTF_8), one.word());
            }
        }
    }

    public void theVersionOfTheKit() {
        Library.KIT.load();
        Library.STORE.load();
        same(KitNative.version(), StoreNative.version());
    }
}
