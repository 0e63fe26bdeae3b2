"""What is done by hand, one topic after the other."""
from browsing.accounts import try_accounts, try_orders, try_restarts, try_rows
from browsing.asking import try_form, try_forms, try_offers, try_typing, try_undo
from browsing.browser import LAPTOP, PHONE
from browsing.documents import try_examples, try_files, try_saving
from browsing.exercises import try_editing, try_exercise, try_questions
from browsing.keys import try_keys
from browsing.looks import try_looks, try_tops
from browsing.pages import Trial, page_of, save
from browsing.sliders import try_asides, try_panel, try_percent


def hands(browser, folder):
    """What is typed, wrong lines, completion, undo and redo, forms, opening
    and saving: by keys alone, at two widths. Then, at one width, links, examples, exercises, sliders, names,
    what is offered, each form, and key, and how all of it looks."""
    trial = Trial("hands")
    path = save(folder, "hands", page_of(""))
    for size in PHONE, LAPTOP:
        browser.width(*size)
        browser.show(path, "#new")
        try_typing(browser, trial)
        try_undo(browser, trial)
        try_form(browser, trial)
        try_saving(browser, trial)
        trial.expect(f"{browser.shown()['broken']}", not browser.shown()["broken"])
    for part in (try_exercise, try_accounts, try_rows, try_questions, try_editing, try_orders, try_restarts, try_panel, try_offers, try_forms, try_keys, try_files, try_examples,
                 try_looks, try_tops, try_asides, try_percent):
        browser.show(path, "#new")
        part(browser, trial)
    trial.expect(f"{browser.shown()['broken']}", not browser.shown()["broken"])
    return trial.faults
