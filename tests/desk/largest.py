"""The text of a policy as large as policies may be: 64 people, 64 roles, 256 permissions, 32 exclusions."""

DEPARTMENTS = ("Cardiology", "Surgery", "Pediatrics", "Oncology", "Radiology", "Neurology", "Pharmacy", "Emergency")

# The roles of a department, each with its juniors.
JOBS = {"Head": ("Consultant", "Matron"), "Consultant": ("Doctor",), "Doctor": ("Assistant",), "Matron": ("Nurse",), "Nurse": ("Assistant",),
        "Assistant": (), "Clerk": (), "Auditor": ()}

# What each job is granted, of the actions in a department.
ACTIONS = {
    "Head": ("Approve_budget", "Approve_leave", "Close_ward", "Sign_contract"),
    "Consultant": ("Overrule_diagnosis", "Approve_surgery", "Release_body", "Grant_trial"),
    "Doctor": ("Diagnose", "Prescribe", "Order_scan", "Order_blood", "Read_history", "Discharge"),
    "Matron": ("Plan_shifts", "Count_drugs", "Lock_cabinet"),
    "Nurse": ("Give_drugs", "Take_blood", "Change_dressing", "Read_prescription", "Call_doctor"),
    "Assistant": ("Read_id", "Read_bed", "Move_patient"),
    "Clerk": ("Admit", "Bill", "Print_label", "Book_visit"),
    "Auditor": ("Read_journal", "Export_journal", "Read_bill"),
}

# The exclusions of a department.
RULES = (("ss-dmer", 2, ("Doctor", "Clerk")), ("ms-dmer", 2, ("Consultant", "Nurse", "Auditor")), ("ss-hmer", 3, ("Head", "Clerk", "Matron", "Auditor")),
         ("ms-hmer", 2, ("Auditor", "Clerk")))

PEOPLE = ("ADAMS BAKER CHEN DIAZ EVANS FOSTER GARCIA HUGHES IVANOV JONES KHAN LOPEZ MEYER NOVAK OKAFOR PARK QUINN ROSSI SILVA TANAKA UGUR VARGAS "
          "WALKER XU YILMAZ ZHANG ALI BROWN COSTA DUBOIS ERIKSEN FISCHER GREEN HANSEN ITO JANSEN KIM LEE MORALES NGUYEN OLSEN PATEL QURESHI "
          "RIVERA SMITH TAYLOR UMAR VEGA WEBER XAVIER YOUNG ZIMMER ANDO BERG CRUZ DAVIS ENGEL FONG GUPTA HALL IBANEZ JACKSON KELLER LIND").split()


def text():
    """The policy as text."""
    roles = [f"{department}_{job}" for department in DEPARTMENTS for job in JOBS]
    permissions = [f"{department}_{action}" for department in DEPARTMENTS for actions in ACTIONS.values() for action in actions]
    lines = ["# A hospital as large as a policy may be.", "user " + " ".join(PEOPLE), *(f"role {role}" for role in roles),
             *(f"permission {permission}" for permission in permissions)]
    for place, department in enumerate(DEPARTMENTS):
        lines += [f"grant {department}_{job} " + " ".join(f"{department}_{action}" for action in actions) for job, actions in ACTIONS.items()]
        lines += [f"senior {department}_{job} " + " ".join(f"{department}_{junior}" for junior in juniors) for job, juniors in JOBS.items() if juniors]
        lines += [f"exclude {kind} {n} " + " ".join(f"{department}_{job}" for job in jobs) for kind, n, jobs in RULES]
        lines.append(f"limit {department}_Head {2 + place % 3}")
    for number, person in enumerate(PEOPLE):
        first, second = DEPARTMENTS[number % 8], DEPARTMENTS[(number + number // 8) % 8]
        jobs = list(JOBS)
        lines.append(f"assign {person} {first}_{jobs[number // 8]} {second}_Clerk {second}_Nurse")
    return "\n".join(lines) + "\n"


if __name__ == "__main__":
    print(text(), end="")
