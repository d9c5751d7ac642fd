"""The ward in ten lines: while one window holds Doctor, the other can't have Data_Manager."""
import nutrameza
from nutrameza import policy, why
said, names = policy.load(__file__.replace(".py", ".policy"))
image, everything = said.image(), range(len(names["permission"]))
ledger = nutrameza.new_ledger(image)
for wish in (names["permission"].index(name) for name in ("Prescribe", "Send_data")):
    session = nutrameza.open(image, ledger, 0).session
    answer = nutrameza.short_ask(image, ledger, 0, session, {wish}, everything)
    print(answer.word, sorted(answer.roles) if answer.done else
          why.Ask(image, ledger, names, 0, session).why({wish}, everything))
