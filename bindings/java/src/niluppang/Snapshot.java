package niluppang;

/**
 * What a site held when its {@link Questions#snapshot} was called. It answers what the site would have answered then, and takes nothing.
 *
 * <pre>
 * try (Snapshot snapshot = site.snapshot()) {
 *     snapshot.archiveStream().transferTo(System.out);
 * }
 * </pre>
 *
 * Another thread may ask it while the site goes on.
 */
public final class Snapshot extends Questions {
    Snapshot(Questions of) {
        super(of.number(), of.group());
        of.checked(Library.sct_raw_snapshot(of.handle, handle));
    }
}
