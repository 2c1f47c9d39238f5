// Pictures: each is one resource, in one collection at a time.
access(all) contract Art {

    // The right to take from a collection.
    access(all) entitlement Withdraw

    access(all) event Mint(id: UInt64, name: String)
    access(all) event Withdrawal(id: UInt64, account: Address?)
    access(all) event Deposit(id: UInt64, account: Address?)

    access(all) let collectionPath: StoragePath
    access(all) let publicPath: PublicPath
    access(all) let minterPath: StoragePath

    // How many pictures were made.
    access(all) var count: UInt64

    access(all) enum Rarity: UInt8 {
        access(all) case common
        access(all) case rare
    }

    // What is told of a picture.
    access(all) struct Card {
        access(all) let id: UInt64
        access(all) let name: String
        access(all) let rarity: Rarity

        view init(id: UInt64, name: String, rarity: Rarity) {
            self.id = id
            self.name = name
            self.rarity = rarity
        }
    }

    access(all) resource Picture {
        access(all) event ResourceDestroyed(id: UInt64 = self.id, name: String = self.name)

        access(all) let id: UInt64
        access(all) let name: String
        access(all) let rarity: Rarity

        init(id: UInt64, name: String, rarity: Rarity) {
            self.id = id
            self.name = name
            self.rarity = rarity
        }

        access(all) view fun card(): Card {
            return Card(id: self.id, name: self.name, rarity: self.rarity)
        }
    }

    access(all) resource Collection {
        access(self) var pictures: @{UInt64: Picture}

        init() {
            self.pictures <- {}
        }

        access(all) fun deposit(_ picture: @Picture) {
            let id = picture.id
            self.pictures[id] <-! picture
            emit Deposit(id: id, account: self.owner?.address)
        }

        access(Withdraw) fun withdraw(id: UInt64): @Picture {
            let picture <- self.pictures.remove(key: id) ?? panic("the picture isn't here")
            emit Withdrawal(id: id, account: self.owner?.address)
            return <-picture
        }

        access(all) view fun ids(): [UInt64] {
            return self.pictures.keys
        }

        access(all) view fun borrow(id: UInt64): &Picture? {
            return &self.pictures[id] as &Picture?
        }
    }

    // Whoever has a minter can make pictures.
    access(all) resource Minter {
        access(all) fun mint(name: String, rarity: Rarity): @Picture {
            Art.count = Art.count + 1
            emit Mint(id: Art.count, name: name)
            return <-create Picture(id: Art.count, name: name, rarity: rarity)
        }
    }

    access(all) fun emptyCollection(): @Collection {
        return <-create Collection()
    }

    init() {
        self.collectionPath = /storage/art
        self.publicPath = /public/art
        self.minterPath = /storage/artMinter
        self.count = 0
        self.account.storage.save(<-create Minter(), to: self.minterPath)
    }
}
