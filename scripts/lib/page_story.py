"""What `use_the_page.py` does with the page, as people do it. Each part goes on where the one before it ends. Beside it
stands who is signed in when it begins."""

from lib.page_decides import corrects, curates, decides, decides_on_many
from lib.page_heard import is_heard
from lib.page_keys import (
    gives_an_equal_order, has_the_password_changed, has_two_windows, is_refused_by_the_proxy, is_told_by_what_is_kept,
    loses_responses, outlives_a_reload, outlives_the_server, tells_wherever_one_is,
)
from lib.page_looks import comes_again, comes_by_a_link, finds_the_server_down, goes_through_pages, looks, reads_the_rules
from lib.page_orders import (
    amends, asks, asks_of_another_vendor, enrols, goes_on_with_a_form, returns_what_it_names, sees_a_grant_at_once, signs_in,
)
from lib.page_reads import by_keyboard, can_be_read, is_kept_in, shows_texts_as_texts
from lib.page_stories import reads_the_files_of_the_record
from lib.staging import CURATOR

ANN = "ann"
STORY = (
    (looks, None), (goes_through_pages, None), (comes_by_a_link, None), (comes_again, None),
    (reads_the_rules, None), (finds_the_server_down, None), (signs_in, None), (enrols, ANN), (asks, ANN), (goes_on_with_a_form, ANN),
    (loses_responses, ANN), (is_refused_by_the_proxy, ANN),
    (outlives_the_server, ANN), (outlives_a_reload, ANN), (has_the_password_changed, ANN), (has_two_windows, ANN),
    (is_told_by_what_is_kept, ANN), (gives_an_equal_order, ANN), (asks_of_another_vendor, ANN),
    (tells_wherever_one_is, ANN), (decides, ANN), (decides_on_many, CURATOR), (curates, CURATOR), (corrects, CURATOR),
    (sees_a_grant_at_once, CURATOR), (returns_what_it_names, ANN), (amends, ANN), (shows_texts_as_texts, ANN),
    (by_keyboard, None), (can_be_read, ANN), (is_heard, ANN), (reads_the_files_of_the_record, ANN),
    (is_kept_in, ANN),
)
