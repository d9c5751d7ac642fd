/** The ward in ten lines: while one window holds Doctor, the other can't have Data_Manager. */
import java.nio.file.Path;
import nutrameza.*;

public class Ward {
    public static void main(String[] words) throws java.io.IOException {
        Policy policy = Policy.read(Path.of(words[0]));
        PermissionSet everything = PermissionSet.below(policy.permissions());
        Ledger ledger = policy.newLedger();
        for (int permission : new int[] {2, 4}) { // Prescribe, then Send_data
            PermissionSet wish = PermissionSet.of(permission);
            Session session = ledger.session(policy, 0, ledger.open(policy, 0).session());
            Answer.Chosen answer = session.shortAsk(wish, everything);
            System.out.println(answer.isDone() ? "done " + answer.roles()
                : answer.word() + ", " + session.obstacle(wish, everything).members() + " exclude each other");
        }
    }
}
