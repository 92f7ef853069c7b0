"""A backup is of one moment, also of a shop that is asked; and yesterday's, restored over today's, loses nothing that others have."""


import workloads
from tests.folder import Folder
from tests.server import Server


def users(at: Folder, folder: str = "auction", site: int = 0) -> list[str]:
    return [row.split()[1] for row in at.shop(f"list {site} users", folder=folder).splitlines()[1:]]


def test_yesterdays_over_todays(at: Folder) -> None:
    """All sites are put back: what came since is named and put aside, and the shop goes on from the backup. Put back again, it is as it was."""
    at.start_sale(2)
    at.shop("ask 1 user,cat --key k")
    at.shop("wait 0")
    assert at.shop("backup yesterday.tar.gz").startswith("site 0: ")
    at.shop("ask 0 user,dan")
    at.shop("ask 1 user,eve")
    at.shop("wait 0")
    at.shop("backup today.tar")
    at.shop("restore yesterday.tar.gz", 1, "auction is running; stop it first")
    at.run("./shop stop auction")
    at.shop("restore yesterday.tar.gz", 2, "say --yes, if that is what you want; auction is as it was")
    assert not (at.path / "auction/0.lost.1").exists() and not (at.path / "auction/restored.new").exists()
    said = at.shop("restore yesterday.tar.gz --yes")
    assert "records that auction/0 has aren't in yesterday.tar.gz" in said and "what was there is auction/0.lost.1" in said
    at.run("./shop start auction")
    assert users(at) == users(at, site=1) == ["ann", "bob", "cat"]
    assert at.shop("ask 1 user,cat --key k") == "ok,1.1\n", "the keys came along"
    assert at.shop("ask 0 user,fay") == "ok,0.4\n", "the number of what was put aside"
    assert at.shop("audit") == "audit,Agree\n"
    at.run("./shop stop auction; ./shop -C auction restore today.tar --yes; ./shop start auction")
    assert users(at) == ["ann", "bob", "dan", "cat", "eve"] and at.shop("audit") == "audit,Agree\n"


def test_one_site(at: Folder) -> None:
    """One site is put back: it is older than what the other has of it, so it is fenced, and made again up to that."""
    at.run("./shop start auction --sites 2")
    at.shop("ask 0 user,ann")
    at.shop("backup yesterday.tar")
    at.shop("ask 0 user,bob")
    at.shop("wait 1")
    at.run("./shop stop auction")
    at.shop("restore yesterday.tar --site 0 --yes")
    at.run("./shop start auction", 3, "site 0: site 1 has 2 messages of it, and its folder has 1 (shop rebuild 0)")
    at.run("./shop stop auction; ./shop -C auction rebuild 0; ./shop start auction")
    assert users(at) == ["ann", "bob"]
    at.shop("restore yesterday.tar --site 7", 2, "yesterday.tar has site 0, 1, and not 7")


def test_a_lost_folder(at: Folder) -> None:
    """Where the folder is lost the backup makes it; a backup that is torn, or another file, changes nothing."""
    at.start_sale(2)
    at.shop("backup whole.tar")
    assert (at.path / "whole.tar").stat().st_mode & 0o077 == 0, "shop.json may have a password"
    at.run("./shop stop auction; mv auction gone; head -c 3000 whole.tar > torn.tar; sed 's/user,bob/user,rob/' whole.tar > changed.tar; echo x > other.tar")
    for name in ("torn", "other"):
        at.shop(f"restore {name}.tar", 2, f"{name}.tar is no backup, or isn't whole; nothing was changed")
    at.shop("restore changed.tar", 1, "isn't as it was when the backup was made; nothing was changed")
    at.shop("restore nowhere.tar", 3, "nowhere.tar: No such file or directory")
    assert not (at.path / "auction").exists()
    at.shop("restore whole.tar")
    at.run("./shop start auction")
    assert users(at) == ["ann", "bob"] and at.shop("audit") == "audit,Agree\n"
    at.run("./shop start other --sites 3; ./shop stop other")
    at.shop("restore whole.tar", 2, "other has --sites 3, and whole.tar has 2", folder="other")


def test_a_backup_has_each_file_of_a_site(at: Folder) -> None:
    """Also why it is fenced, and that it yields; but for the lock and the sums, which a start makes."""
    at.run("./shop start auction")
    at.shop("ask 0 user,ann --key k")
    at.run("./shop stop auction")
    for name in ("fenced", "yields"):
        (at.path / "auction/0" / name).write_text(f"{name}\n")
    at.shop("backup all.tar")
    at.shop("restore all.tar", folder="other")

    def files(folder: str) -> dict[str, bytes]:
        return {path.name: path.read_bytes() for path in (at.path / folder / "0").iterdir() if path.name not in ("lock", "sums")}
    assert files("other") == files("auction") and len(files("other")) == 6, f"{files('other').keys()} of {files('auction').keys()}"


def test_while_it_is_asked(at: Folder) -> None:
    """Backups of a shop that is asked at both sites: each, restored elsewhere, starts with no site fenced, and agrees."""
    at.run("./shop start auction --sites 2")
    (at.path / "asks").write_bytes(workloads.requests(4_000).text)
    asking = at.start("sh -c './shop -C auction ask 0 - < asks > answers'")
    blue = at.start("sh -c 'while ./shop -C auction ask 1 item,0.1,lamp,7,1,5,0; do :; done'")
    count = 0
    while asking.poll() is None or count < 3:
        at.shop(f"backup {count}.tar")
        count += 1
    blue.kill()
    for number in range(count):
        folder = f"copy{number}"
        at.shop(f"restore {number}.tar", folder=folder)
        at.run(f"./shop start {folder}")
        at.shop("wait 0", folder=folder)
        assert at.shop("audit", folder=folder) == "audit,Agree\n"
        at.run(f"./shop stop {folder}")


def test_over_a_server(server: Server) -> None:
    """Yesterday's over today's, where the stream has what came since: the site is fenced, and made again."""
    at = server.start_shop().at
    at.shop("ask 0 user,ann", folder="a")
    at.shop("backup yesterday.tar", folder="a")
    at.shop("ask 0 user,bob", folder="a")
    at.shop("ask 2 item,0.1,cup,7,1,5,0", folder="b")
    at.run("./shop stop a")
    at.shop("restore yesterday.tar --yes", folder="a")
    at.run("./shop start a", 3, "(shop rebuild 0)")
    at.run("./shop stop a; ./shop -C a rebuild 0; ./shop -C a rebuild 1; ./shop start a")
    assert users(at, "a") == ["ann", "bob"]
