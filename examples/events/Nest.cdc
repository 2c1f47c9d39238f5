// Events with fields of each kind, and resources inside resources.
access(all) contract Nest {

    access(all) event Start(path: StoragePath)
    access(all) event Kinds(
        isWhite: Bool, text: String, character: Character, address: Address,
        number: Int, small: UInt8, part: Fix64, amount: UFix64, some: Int?, none: Int?,
        list: [Int], table: {String: Int}, point: Point, colour: Colour, path: PublicPath
    )

    access(all) enum Colour: UInt8 {
        access(all) case white
        access(all) case brown
    }

    access(all) struct Point {
        access(all) let x: Int
        access(all) let y: Int

        init(x: Int, y: Int) {
            self.x = x
            self.y = y
        }
    }

    access(all) resource Egg {
        access(all) event ResourceDestroyed(egg: UInt64 = self.uuid, size: Int = self.size)

        access(all) let size: Int

        init(_ size: Int) {
            self.size = size
        }
    }

    access(all) resource Basket {
        access(all) event ResourceDestroyed(basket: UInt64 = self.uuid, count: Int = self.eggs.length)

        access(all) var first: @Egg?
        access(all) var eggs: @[Egg]
        access(all) var byName: @{String: Egg}

        init() {
            self.first <- create Egg(1)
            self.eggs <- []
            self.byName <- {}
        }

        access(all) fun add(_ egg: @Egg) {
            self.eggs.append(<-egg)
        }

        access(all) fun name(_ name: String, _ egg: @Egg) {
            self.byName[name] <-! egg
        }

        access(all) fun take(): @Egg {
            return <-self.eggs.removeFirst()
        }
    }

    access(all) fun egg(_ size: Int): @Egg {
        return <-create Egg(size)
    }

    access(all) fun basket(): @Basket {
        return <-create Basket()
    }

    access(all) fun tell(_ address: Address) {
        emit Kinds(
            isWhite: true, text: "two\nlines", character: "\u{E9}", address: address,
            number: -7, small: 255, part: -0.5, amount: 10.0, some: 1, none: nil,
            list: [1, 2], table: {"b": 1, "a": 2}, point: Point(x: 3, y: 4), colour: Colour.brown, path: /public/nest
        )
    }

    init() {
        emit Start(path: /storage/nest)
    }
}
