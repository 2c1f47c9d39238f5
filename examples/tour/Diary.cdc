access(all) contract Diary {
  access(all) entitlement Read
  access(all) entitlement Write
  access(all) entitlement Key

  access(all) entitlement mapping Lock {
    Key -> Write
  }

  access(all) resource Book {
    access(all) let title: String
    access(self) var pages: [String]

    init(_ title: String) {
      self.title = title
      self.pages = []
    }

    access(all) view fun length(): Int {
      return self.pages.length
    }

    access(Read | Write) fun page(_ n: Int): String {
      return self.pages[n]
    }

    access(Write) fun write(_ text: String) {
      self.pages.append(text)
    }

    access(Read, Write) fun correct(_ n: Int, _ text: String) {
      self.pages[n] = text
    }

    access(contract) fun clear() {
      self.pages = []
    }
  }

  access(all) resource Drawer {
    access(mapping Lock) let book: @Book

    init(_ book: @Book) {
      self.book <- book
    }
  }

  access(all) fun book(_ title: String): @Book {
    return <-create Book(title)
  }

  access(all) fun drawer(_ book: @Book): @Drawer {
    return <-create Drawer(<-book)
  }

  access(all) fun clear(_ book: &Book) {
    book.clear()
  }
}
