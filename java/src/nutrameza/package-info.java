/**
 * The session kit, which picks the roles to activate for a request or says that there are none; and the store, which
 * keeps wards in SQLite or PostgreSQL.
 *
 * <p>A {@link nutrameza.Policy} is a hospital's roles and rules as an image, a {@link nutrameza.Ledger} what each user
 * has and has had active, a {@link nutrameza.Session} one window of a user on it. {@link nutrameza.Store} makes the
 * same calls over a database. {@link nutrameza.Kit} has the calls as the C header has them, over byte buffers.
 *
 * <p>The library judges and this package judges nothing: a call takes any image, ledger and numbers, and tells one
 * {@link nutrameza.Refusal} where it does not do what it is for. A refused call changes no byte. Refusals are told in
 * an {@link nutrameza.Answer} and never thrown; a storage that fails is thrown as a {@link nutrameza.StoreException}.
 */
package nutrameza;
